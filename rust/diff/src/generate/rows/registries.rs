//! Registries of hundreds of names: tables by the first, the last and some between them, and by names that are just
//! not there.

use std::collections::BTreeSet;

use plain::tables::Block;

use super::usual;
use super::values::{write_row, SHORT};
use crate::case::{op, Case};
use crate::generate::{Emit, Kind};
use crate::plan::{lay_out, over, put_name, table_of, words, Plan};
use crate::rng::Rng;

const KIND: Kind = "large registry";

/// So many different names, in order: many begin as others do, and some are all that another begins with.
fn names(rng: &mut Rng, count: usize) -> Vec<String> {
    const PIECES: [&str; 8] = ["a", "b", "z", "table/", "_", "é", "名", "queue.row"];
    let mut names = BTreeSet::from([String::new()]);
    let mut known = vec![String::new()];
    while names.len() < count {
        let mut name = rng.pick(&known).clone();
        match rng.below(4) {
            0 => drop(name.pop()),
            1 => name = PIECES[rng.below(8)].repeat(rng.between(1, 12)),
            _ => {}
        }
        (0..rng.between(1, 3)).for_each(|_| name.push_str(PIECES[rng.below(8)]));
        if name.len() <= 90 && names.insert(name.clone()) {
            known.push(name);
        }
    }
    names.into_iter().collect()
}

/// Schemas whose rows have different lengths, so that it shows which entry was found.
fn schemas() -> Vec<Vec<Plan>> {
    let leaf = |code: u8| table_of(&[Plan::new(code, 0)]);
    let mut schemas = vec![vec![Plan::new(19, 0)], leaf(8), leaf(9), leaf(10), leaf(13)];
    schemas.extend([table_of(&over(17, &[8, 0])), table_of(&over(15, &[0, 5]))]);
    schemas
}

struct Registry {
    names: Vec<String>,
    blocks: Vec<Block>,
    case: Case,
}

impl Registry {
    fn new(rng: &mut Rng, count: usize) -> Self {
        let names = names(rng, count);
        let mut case = Case::default().with_settings(usual());
        let schemas: Vec<Block> =
            schemas().iter().map(|plans| lay_out(plans, &mut case.records, &mut case.names)).collect();
        let blocks: Vec<Block> = (0..count).map(|index| schemas[index * 3 % schemas.len()]).collect();
        for (name, block) in names.iter().zip(&blocks) {
            let start = put_name(&mut case.names, name.as_bytes());
            let fields = [start, name.len() as u32, block.first as u32, block.count as u32];
            case.registry.extend(words(fields));
        }
        Self { names, blocks, case }
    }

    /// Entries that a search may miss: at both ends, in the middle, and where a byte no longer counts them.
    fn chosen(&self) -> Vec<usize> {
        let count = self.names.len();
        let middle = count / 2;
        let chosen = [0, 1, middle - 1, middle, middle + 1, 253, 254, 255, 256, 257, count - 2, count - 1];
        chosen.into_iter().filter(|index| *index < count).collect()
    }

    /// A table by a name, whether it is there or not.
    fn reference(case: &mut Case, name: &str) -> [u8; 16] {
        words([1, put_name(&mut case.names, name.as_bytes()), name.len() as u32, 0])
    }

    /// Names just below an entry's and just above it, what it begins with, and what begins as it does.
    fn beside(&self, index: usize) -> Vec<String> {
        let name = &self.names[index];
        let mut shorter = name.clone();
        let last = shorter.pop();
        let below = last.filter(char::is_ascii).map(|last| (last as u8 - 1) as char);
        let below = below.map(|last| format!("{shorter}{last}\u{7f}"));
        let beside = [Some(format!("{name}\0")), Some(shorter), below, Some(format!("{name}a\u{1}"))];
        beside.into_iter().flatten().filter(|name| self.names.binary_search(name).is_err()).collect()
    }

    /// Tables by the chosen names, with a row of each: all of them run over, and each skipped.
    fn found(&self, rng: &mut Rng, emit: &mut Emit) -> Case {
        let mut case = self.case.clone();
        let mut starts = Vec::new();
        for (table, index) in (0..).zip(self.chosen()) {
            let reference = Self::reference(&mut case, &self.names[index]);
            case.references.extend(reference);
            starts.push(case.input.len() as u64);
            write_row(rng, &SHORT, (table, self.blocks[index]), &case.records, &mut case.input);
        }
        emit(KIND, Case { op: op::RUN, ..case.clone() });
        starts.into_iter().for_each(|a| emit(KIND, Case { op: op::SKIP, a, ..case.clone() }));
        case
    }

    /// One table more, by a name that is not there.
    fn unknown(&self, good: &Case, emit: &mut Emit) {
        for (turn, index) in self.chosen().into_iter().enumerate() {
            for (which, name) in self.beside(index).iter().enumerate() {
                let mut case = Case { op: [op::SKIP, op::RUN][(turn + which) % 2], ..good.clone() };
                let reference = Self::reference(&mut case, name);
                let at = (turn * 5 + which) % (case.references.len() / 16 + 1) * 16;
                case.references.splice(at..at, reference);
                emit(KIND, case);
            }
        }
    }

    /// Names out of order, one twice, and some that are not UTF-8, deep in the registry.
    fn damaged(&self, good: &Case, emit: &mut Emit) {
        let last = self.names.len() - 1;
        for index in [0, 254, 255, 256, last - 1].into_iter().filter(|index| *index < last) {
            let at = index * 16;
            let mut turned = good.clone();
            let next = turned.registry[at + 16..at + 32].to_vec();
            turned.registry.copy_within(at..at + 16, at + 16);
            emit(KIND, Case { op: op::RUN, ..turned.clone() });
            turned.registry[at..at + 16].copy_from_slice(&next);
            emit(KIND, Case { op: op::SKIP, ..turned });
        }
        // The last entry, referred to or not, and a reference to what is not there.
        for (is_entry, is_reference) in [(true, true), (true, false), (false, true)] {
            let mut case = Case { op: op::RUN, ..good.clone() };
            let start = put_name(&mut case.names, b"\xFF\xFF");
            if is_entry {
                let fields = [start, 2, self.blocks[1].first as u32, self.blocks[1].count as u32];
                case.registry.extend(words(fields));
            }
            if is_reference {
                case.references.extend(words([1, start, 2, 0]));
            }
            emit(KIND, case);
        }
        // One in the middle, which begins as the one before it, comes right after that, and is referred to by none.
        for index in [1, 128, 255].into_iter().filter(|index| *index < last) {
            let name = [self.names[index - 1].as_bytes(), b"\xC0\x80"].concat();
            if name.as_slice() < self.names[index].as_bytes() {
                let mut case = Case { op: op::SKIP, ..good.clone() };
                let start = put_name(&mut case.names, &name);
                let fields =
                    [start, name.len() as u32, self.blocks[1].first as u32, self.blocks[1].count as u32];
                case.registry.splice(index * 16..index * 16, words(fields));
                emit(KIND, case);
            }
        }
    }
}

pub fn fixed(emit: &mut Emit) {
    for (number, count) in (0..).zip([255, 256, 257, 300, 1_000]) {
        let rng = &mut Rng::for_case(300, number);
        let registry = Registry::new(rng, count);
        let good = registry.found(rng, emit);
        registry.unknown(&good, emit);
        registry.damaged(&good, emit);
    }
}

#[cfg(test)]
mod tests {
    use super::*;
    use crate::judge::plain_report;
    use std::collections::BTreeMap;

    /// Known names are found and rows of their tables read; of the others each is refused for what it is.
    #[test]
    fn names_are_there_or_not() {
        let mut answers: BTreeMap<u64, u64> = BTreeMap::new();
        fixed(&mut |_, case| *answers.entry(plain_report(&case).number).or_default() += 1);
        assert_eq!(answers.keys().copied().collect::<Vec<_>>(), [0, 2, 7, 33]);
        assert!(
            answers[&0] > 50 && answers[&2] > 30 && answers[&7] > 150 && answers[&33] > 15,
            "{answers:?}"
        );
    }
}
