//! Whether the verdicts of `plain` are those of document 01's definitions taken
//! literally, on the generator's inputs: `agree [count] [seed]`. Large tables and
//! very long runs are left out: that is slow.

#[path = "plain/by_definition.rs"]
#[allow(dead_code)]
mod by_definition;

use std::collections::BTreeMap;

use by_definition::*;
use generator::Generator;
use plain::*;

const MOST_PAIRS: usize = 2000;
const MOST_STEPS: usize = 150;

fn main() {
    let mut arguments = std::env::args().skip(1).map(|word| word.parse::<u64>().expect("a number"));
    let count = arguments.next().unwrap_or(5000);
    let seed = arguments.next().unwrap_or(1);
    let mut generator = Generator::new(seed);
    let (mut yes, mut no, mut left_out) = (0, 0, 0);
    for _ in 0..count {
        let input = generator.next();
        let (Ok(new), Ok(old)) = (read(&input.first), read(&input.second)) else {
            continue;
        };
        let turned = dual(&old).expect("a text has at most 64 nodes");
        for old in [old, turned] {
            let verdict = may_replace(&new, &input.first, &old, &input.second);
            let new = Named { table: &new, names: &input.first };
            let old = Named { table: &old, names: &input.second };
            let pairs = 2 * new.table.nodes().len() * old.table.nodes().len();
            match verdict {
                Verdict::No { run, .. } if run.len() > MOST_STEPS => left_out += 1,
                Verdict::Yes { .. } if pairs > MOST_PAIRS => left_out += 1,
                Verdict::Yes { marks, count } => {
                    assert_eq!(count, marks.iter().filter(|mark| **mark).count());
                    assert!(some_set_holds_the_starts(new, old), "{}", input.kind);
                    assert!(marks_are_the_reached_pairs(new, old, &marks), "{}", input.kind);
                    yes += 1;
                }
                Verdict::No { reason, detail, new: new_node, old: old_node, turn, run } => {
                    assert!(pairs > MOST_PAIRS || !some_set_holds_the_starts(new, old));
                    let (first, pair, why) = first_mismatch(new, old);
                    let answer = (run, (turn, new_node, old_node), (reason, detail));
                    assert_eq!((first, pair, why), answer, "{}", input.kind);
                    no += 1;
                }
            }
        }
    }
    println!("{yes} times yes and {no} times no agree; {left_out} left out");
}

/// The first run to a mismatch, with all runs of one length after the other: of
/// those that end in the same pair only the first in order is kept, because what
/// follows is the same for all of them.
fn first_mismatch(new: Named, old: Named) -> (Vec<u16>, Pair, (usize, usize)) {
    let mut runs = BTreeMap::from([(starts(new, old), Vec::new())]);
    loop {
        let mut found: Option<(Vec<u16>, Pair, (usize, usize))> = None;
        let mut longer: BTreeMap<Pair, Vec<u16>> = BTreeMap::new();
        for (pair, run) in runs {
            match beside(new, old, pair) {
                Beside::Mismatch(reason, detail) => {
                    if found.as_ref().is_none_or(|(first, ..)| run < *first) {
                        found = Some((run, pair, (reason, detail)));
                    }
                }
                Beside::Steps(steps) => {
                    for (number, next) in steps {
                        let mut run = run.clone();
                        run.push(number);
                        match longer.get(&next) {
                            Some(first) if *first <= run => {}
                            _ => {
                                longer.insert(next, run);
                            }
                        }
                    }
                }
            }
        }
        if let Some(found) = found {
            return found;
        }
        runs = longer;
    }
}
