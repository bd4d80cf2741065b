//! Cases of the writing calls. Room for the row comes after, when it is known how much it needs.

pub mod damage;
pub mod draw;
pub mod edges;
pub mod tables;

use plain::settings::{Settings, MOST, MOST_NODE_CHARGE};

use super::names::BOUNDS;
use super::rows::limits::two_limits;
use super::rows::usual;
use super::trees::{random_case, random_size, random_table_plans, widened, with_blobs};
use super::{damage as schema_damage, Kind, TWO_BLOB_LIMITS};
use crate::case::{op, Case};
use crate::judge::lone_block;
use crate::original::writing::accepts;
use crate::plan::lay_out;
use crate::rng::Rng;
use crate::writing::WriteCase;
use draw::{draw, Node};

/// Takes the cases one by one.
pub type Emit<'a> = dyn FnMut(Kind, WriteCase) + 'a;

/// A case of the encoder's check over one block, with usual settings.
pub fn schema_of(plans: &[crate::plan::Plan]) -> Case {
    let mut case = Case { op: op::ENCODER, ..Case::default() }.with_settings(usual());
    let block = lay_out(plans, &mut case.records, &mut case.names);
    Case { a: block.first, b: block.count, ..case }
}

/// A schema that is a table's but for a rule broken now and then, with other blocks around it.
fn random_schema(rng: &mut Rng) -> Case {
    let mut case = Case { op: op::ENCODER, ..Case::default() }.with_settings(usual());
    if rng.one_in(8) {
        lay_out(&random_table_plans(rng, 3, 3), &mut case.records, &mut case.names);
    }
    let size = random_size(rng).min(80);
    let plans = random_table_plans(rng, size, 2_000);
    let plans = if rng.one_in(400) { widened(rng, plans) } else { plans };
    let block = lay_out(&plans, &mut case.records, &mut case.names);
    Case { a: block.first, b: block.count, ..case }
}

/// A schema and a value of it.
fn good(rng: &mut Rng) -> (Case, Node) {
    good_of(rng, random_schema)
}

/// The same with many blobs of both types.
fn good_with_blobs(rng: &mut Rng) -> (Case, Node) {
    good_of(rng, |rng| {
        let schema = random_schema(rng);
        with_blobs(rng, schema)
    })
}

fn good_of(rng: &mut Rng, draw_schema: fn(&mut Rng) -> Case) -> (Case, Node) {
    loop {
        let schema = draw_schema(rng);
        let block = lone_block(&schema);
        if accepts(&schema) == Some(Ok(())) {
            let value = draw(rng, &schema.records, block);
            return (schema, value);
        }
    }
}

fn case(schema: Case, value: &Node) -> WriteCase {
    WriteCase { schema, value: draw::lay_out(value), output: 0, position: 0 }
}

/// A schema that is refused, or its block's numbers are, with any value.
fn bad_schema(rng: &mut Rng) -> WriteCase {
    let (_, value) = good(rng);
    let schema = match rng.below(4) {
        0 => schema_damage::damaged(rng),
        1 => schema_damage::block_numbers(rng),
        2 => schema_damage::mutated(rng),
        _ => random_case(rng),
    };
    let schema = match schema.op {
        op::VALIDATE | op::ENCODER => schema,
        // A format's tables: any block of them.
        _ => Case { a: rng.below(3) as u64, b: rng.below(5) as u64, ..schema },
    };
    let schema = Case { op: op::ENCODER, references: vec![], registry: vec![], input: vec![], ..schema };
    case(schema.with_settings(usual()), &value)
}

/// The blob limit at the longest blob, one over it or one under it.
fn at_the_limit(rng: &mut Rng) -> WriteCase {
    let (schema, value) = good(rng);
    let [string32, yson32] = value.longest();
    let longest = string32.max(yson32);
    let limit = [longest, longest + 1, longest.saturating_sub(1), 0][rng.below(4)];
    case(schema.with_settings(usual().with_max_blob_bytes(limit)), &value)
}

/// Values with blobs of both types, mostly right ones, under a limit for each.
fn two_blob_limits(rng: &mut Rng) -> WriteCase {
    let (schema, mut value) = good_with_blobs(rng);
    let [max_string32_bytes, max_yson32_bytes] = two_limits(rng, value.longest());
    if rng.one_in(6) {
        damage::value(rng, &mut value);
    }
    let settings = Settings { max_string32_bytes, max_yson32_bytes, ..usual() };
    case(schema.with_settings(settings), &value)
}

/// Settings within their bounds and outside of them.
fn odd_settings(rng: &mut Rng) -> WriteCase {
    let (schema, value) = good(rng);
    let limit = |rng: &mut Rng| *rng.pick(&[0, 1, 5, MOST - 1, MOST, MOST + 1, 1 << 32 | 300, u64::MAX]);
    let charges = [0, 1, 48, MOST_NODE_CHARGE, MOST_NODE_CHARGE + 1, u64::MAX];
    let blob_bytes = limit(rng);
    let settings = Settings { node_charge: *rng.pick(&charges), max_row_bytes: limit(rng), ..usual() };
    case(schema.with_settings(settings.with_max_blob_bytes(blob_bytes)), &value)
}

/// One random case.
pub fn random(rng: &mut Rng) -> (Kind, WriteCase) {
    match rng.below(110) {
        0..=34 => {
            let (schema, value) = good(rng);
            ("drawn values", case(schema, &value))
        }
        35..=64 => {
            let (schema, mut value) = good(rng);
            for _ in 0..rng.between(1, 2) {
                damage::value(rng, &mut value);
            }
            ("damaged values", case(schema, &value))
        }
        65..=74 => ("blob limits", at_the_limit(rng)),
        75..=91 => {
            let (schema, mut value) = good(rng);
            if rng.one_in(3) {
                damage::value(rng, &mut value);
            }
            let mut case = case(schema, &value);
            for _ in 0..rng.between(1, 2) {
                damage::table(rng, &mut case.value);
            }
            ("damaged tables", case)
        }
        92..=95 => ("bad schemas", bad_schema(rng)),
        96..=97 => {
            // What is no text in the store; some of it may be nobody's name.
            let (mut schema, mut value) = good(rng);
            let at = rng.below(schema.names.len() + 1);
            match rng.below(3) {
                0 => schema.names.fill(0xFF),
                1 => schema.names.iter_mut().skip(at).for_each(|byte| *byte = *rng.pick(&BOUNDS)),
                _ => schema.names.iter_mut().skip(at).take(1).for_each(|byte| *byte = *rng.pick(&BOUNDS)),
            }
            if rng.one_in(2) {
                damage::value(rng, &mut value);
            }
            ("names not UTF-8", case(schema, &value))
        }
        98..=99 => ("odd settings", odd_settings(rng)),
        _ => (TWO_BLOB_LIMITS, two_blob_limits(rng)),
    }
}

#[cfg(test)]
mod tests {
    use super::*;
    use plain::encoding::written;
    use plain::value_table::is_formed;

    fn depth(node: &Node) -> usize {
        match &node.body {
            draw::Body::Children(children) => 1 + children.iter().map(depth).max().unwrap_or(0),
            _ => 1,
        }
    }

    /// What is drawn can be written, but for variants without children.
    #[test]
    fn drawn_values_fit() {
        let mut accepted = 0;
        for number in 0..3_000 {
            let (schema, value) = good(&mut Rng::for_case(3, number));
            match written(&case(schema, &value).given()) {
                Ok(_) => accepted += 1,
                Err(refusal) => assert_eq!((refusal.number, refusal.carried[2]), (17, 0)),
            }
        }
        assert!(accepted > 2_000, "{accepted}");
    }

    /// A damaged value is still a value, unless it is too deep; most of them no longer fit.
    #[test]
    fn damaged_values_have_tables() {
        let mut refused = 0;
        for number in 0..3_000 {
            let rng = &mut Rng::for_case(4, number);
            let (schema, mut value) = good(rng);
            damage::value(rng, &mut value);
            let case = case(schema, &value);
            assert_eq!(is_formed(&case.value.records, &case.value.payload), depth(&value) <= 64);
            refused += u64::from(written(&case.given()).is_err());
        }
        assert!(refused > 1_000, "{refused}");
    }
}
