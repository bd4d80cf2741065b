//! Random schemas, mostly right ones, and the calls that take a single block.

use plain::wire_type::{LAST_CHILDLESS, STRING32, YSON32};

use super::formats::Pool;
use crate::case::{op, Case};
use crate::plan::Plan;
use crate::rng::Rng;

const NAMES: [&[u8]; 12] = [
    b"",
    b"a",
    b"b",
    b"ab",
    b"aa",
    b"abc",
    b"page",
    b"name",
    b"$",
    "é".as_bytes(),
    "名前".as_bytes(),
    b"a\0b",
];

pub fn random_name(rng: &mut Rng) -> Vec<u8> {
    if rng.one_in(60) {
        return vec![b'n'; rng.between(1, 400)];
    }
    rng.pick(&NAMES).to_vec()
}

/// How child counts are drawn: bushes, chains, and now and then one very wide node.
fn random_count(rng: &mut Rng, style: usize, room: usize) -> usize {
    let wished = match style {
        0 => rng.below(5),
        1 => usize::from(!rng.one_in(40)),
        2 => [0, 0, 1, 2][rng.below(4)],
        _ => [0, 1, 12][rng.below(3)],
    };
    wished.min(room)
}

/// A code for a node with so many children; one in `fault` is against the rules.
fn random_code(rng: &mut Rng, children: usize, fault: usize) -> u8 {
    if children == 0 || rng.one_in(fault) {
        rng.below(20) as u8
    } else {
        rng.between(15, 19) as u8
    }
}

/// A random tree with at most `most` nodes.
pub fn random_plans(rng: &mut Rng, most: usize, fault: usize) -> Vec<Plan> {
    let style = rng.below(4);
    let mut plans: Vec<Plan> = Vec::new();
    let mut met = 1;
    while plans.len() < met {
        let mut count = random_count(rng, style, most - met);
        if count == 0 && plans.len() + 1 == met && met < most && !rng.one_in(4) {
            count = 1;
        }
        met += count;
        let code = random_code(rng, count, fault);
        let name = if rng.one_in(3) { Some(random_name(rng)) } else { None };
        plans.push(Plan { code, children: count as u32, name });
    }
    plans
}

/// One node among those without children gets about as many as an eight-bit tag can name.
pub fn widened(rng: &mut Rng, mut plans: Vec<Plan>) -> Vec<Plan> {
    let last = plans.len() - 1;
    let count = rng.between(253, 258);
    let code = rng.between(15, 19) as u8;
    // The last node of all is childless, and its children come after everything else.
    plans[last] = Plan { code, children: count as u32, ..plans[last].clone() };
    let leaf = Plan::new(rng.below(20) as u8, 0);
    plans.resize(last + 1 + count, leaf);
    plans
}

/// A random table: a tuple with named columns, but for a fault now and then.
pub fn random_table_plans(rng: &mut Rng, most: usize, fault: usize) -> Vec<Plan> {
    let mut plans = random_plans(rng, most, fault);
    if !rng.one_in(fault) {
        plans[0].code = 19;
    }
    for column in 1..=plans[0].children as usize {
        plans[column].name = Some(b"column".to_vec());
    }
    if plans.len() > 1 && rng.one_in(fault) {
        let column = 1 + rng.below(plans[0].children as usize);
        plans[column].name = [None, Some(Vec::new())][rng.below(2)].clone();
    }
    plans
}

/// The same schemas with blobs, of either type, for about half of the nodes that can't have children.
pub fn with_blobs(rng: &mut Rng, mut case: Case) -> Case {
    for record in case.records.chunks_exact_mut(16).filter(|record| record[0] <= LAST_CHILDLESS) {
        if rng.one_in(2) {
            record[0] = [STRING32, YSON32][rng.below(2)];
        }
    }
    case
}

/// A size: mostly a handful, sometimes enough for a long chain.
pub fn random_size(rng: &mut Rng) -> usize {
    match rng.below(100) {
        0..=69 => rng.between(1, 8),
        70..=96 => rng.between(4, 24),
        97..=98 => rng.between(60, 70),
        _ => rng.between(100, 300),
    }
}

/// A block among others, given by its numbers.
pub fn random_case(rng: &mut Rng) -> Case {
    let mut pool = Pool::default();
    let fault = [3, 30, 200][rng.below(3)];
    for _ in 0..rng.below(3) {
        let size = rng.between(1, 4);
        pool.add(&random_plans(rng, size, 3));
    }
    let size = random_size(rng);
    let plans =
        if rng.one_in(2) { random_plans(rng, size, fault) } else { random_table_plans(rng, size, fault) };
    let plans = if rng.one_in(100) { widened(rng, plans) } else { plans };
    let block = pool.add(&plans);
    if rng.one_in(3) {
        pool.add(&random_plans(rng, 3, 3));
    }
    let op = [op::VALIDATE, op::ENCODER][rng.below(2)];
    Case { op, a: block.first, b: block.count, ..pool.case() }
}
