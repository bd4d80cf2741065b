//! Two threads that ask at once: in some rounds both ask the same, in the others each something else.

use std::sync::Barrier;
use std::thread;

/// Each thread asks about everything so often.
const ROUNDS: usize = 12;

/// What a thread asks about in one round, by numbers: both go in step, or each its own way.
fn order(count: usize, round: usize, thread: usize) -> Vec<usize> {
    let forth = 0..count;
    match (round % 4, thread) {
        (0, _) | (1, 0) => forth.collect(),
        (1, _) => forth.rev().collect(),
        (_, thread) => forth.map(|index| (index + thread * round) % count).collect(),
    }
}

/// How many calls were made, or the first thing that was wrong. `ask` is given a number that no other asking has in
/// the same thread, and says how many calls it made.
pub fn by_two_threads<Q: Sync>(
    questions: &[Q],
    ask: impl Fn(&Q, u64) -> Result<u64, String> + Sync,
) -> Result<u64, String> {
    let together = Barrier::new(2);
    let rounds = |thread: usize| {
        let mut calls = Ok(0);
        for round in 0..ROUNDS {
            together.wait();
            for index in order(questions.len(), round, thread) {
                let asked = ask(&questions[index], (round * questions.len() + index) as u64);
                // The other thread waits for this one at the next round, so all rounds are gone through.
                calls = calls.and_then(|calls| Ok(calls + asked?));
            }
        }
        calls.map_err(|why: String| format!("two threads at once: {why}"))
    };
    let (one, other) = thread::scope(|scope| {
        let other = scope.spawn(|| rounds(1));
        (rounds(0), other.join().expect("a thread ends"))
    });
    Ok(one? + other?)
}

#[cfg(test)]
mod tests {
    use super::*;

    #[test]
    fn all_is_asked_and_what_is_wrong_is_told() {
        let calls = by_two_threads(&[1, 2, 4], |calls, _| Ok(*calls));
        assert_eq!(calls, Ok(2 * 7 * ROUNDS as u64));
        let wrong = by_two_threads(&[1, 2, 4], |question, _| match question {
            4 => Err("four".to_owned()),
            _ => Ok(1),
        });
        assert_eq!(wrong, Err("two threads at once: four".to_owned()));
    }
}
