//! Inputs for comparing implementations of document 01: from one seed always
//! the same sequence of pairs of texts.
//!
//! Each kind of input has a weight. Most inputs are small; the weights see to it
//! that every refusal of a text, every reason, both turns and long runs are met
//! often, by the verdict and by compatible alike. For the latter the second text
//! of related ones is turned to its dual every other time.

mod blanks;
mod damage;
mod good;
mod limits;
mod names;
mod noise;
mod random;
mod related;
mod runs;
mod words;
mod written;

use blanks::sprinkled;
use random::Random;
use written::{Text, Word};

pub struct Input {
    pub kind: &'static str,
    pub first: Vec<u8>,
    pub second: Vec<u8>,
}

pub struct Generator {
    random: Random,
}

type Pair = (Vec<u8>, Vec<u8>);

/// Its weight, its name and how it is made.
type Kind = (usize, &'static str, fn(&mut Random) -> Pair);

const KINDS: [Kind; 23] = [
    (50, "two good texts", two_good_texts),
    (90, "the same text otherwise", the_same_otherwise),
    (170, "one change", |random| changed(random, 1, 0)),
    (70, "several changes", |random| changed(random, 4, 0)),
    (130, "changes inside sessions", |random| changed(random, 2, 5)),
    (10, "large texts", large_texts),
    (40, "chains", chains),
    (60, "rings", |random| rings(random, false)),
    (30, "rings that turn", |random| rings(random, true)),
    (60, "damaged byte", |random| damaged(random, damage::byte)),
    (60, "damaged token", |random| damaged(random, damage::token)),
    (20, "cut short", |random| damaged(random, damage::truncate)),
    (70, "one limit", |random| limited(random, limits::one)),
    (25, "several limits", |random| limited(random, limits::several)),
    (12, "name never defined", |random| misnamed(random, names::use_undefined)),
    (12, "names lead round", |random| misnamed(random, names::lead_round)),
    (12, "name defined twice", |random| misnamed(random, names::define_twice)),
    (12, "label twice", |random| misnamed(random, names::list_twice)),
    (12, "several faults of names", |random| misnamed(random, names::several)),
    (15, "random bytes", random_bytes),
    (10, "random bytes beside a text", random_bytes_beside),
    (10, "random tokens", |random| (noise::tokens(random), noise::tokens(random))),
    (30, "random tokens beside a text", random_tokens_beside),
];

impl Generator {
    pub fn new(seed: u64) -> Generator {
        Generator { random: Random::new(seed) }
    }

    pub fn next(&mut self) -> Input {
        let whole = KINDS.iter().map(|(weight, ..)| weight).sum();
        let mut left = self.random.below(whole);
        for (weight, kind, make) in KINDS {
            if left < weight {
                let (first, second) = make(&mut self.random);
                return Input { kind, first, second };
            }
            left -= weight;
        }
        unreachable!("the weights sum up to the whole")
    }
}

// Good texts

fn written(random: &mut Random, text: &Text) -> Vec<u8> {
    let bytes = if random.chance(1, 2) { text.bytes() } else { text.bytes_shuffled(random) };
    sprinkled(random, &bytes)
}

fn any_text(random: &mut Random) -> (Text, Vec<Word>) {
    let size = good::any_size(random);
    let labels = good::labels(random);
    (good::text(random, size, &labels), labels)
}

fn small_bytes(random: &mut Random) -> Vec<u8> {
    let text = good::small_text(random);
    written(random, &text)
}

/// Both texts, in either order, the second one turned every other time.
fn written_pair(random: &mut Random, mut texts: [Text; 2]) -> Pair {
    random.shuffle(&mut texts);
    let [first, second] = texts;
    let second = if random.chance(1, 2) { related::dual(random, &second) } else { second };
    (written(random, &first), written(random, &second))
}

fn two_good_texts(random: &mut Random) -> Pair {
    let size = good::any_size(random);
    let labels = good::labels(random);
    let texts = [good::text(random, size, &labels), good::text(random, size, &labels)];
    written_pair(random, texts)
}

fn the_same_otherwise(random: &mut Random) -> Pair {
    let (text, _) = any_text(random);
    let mut other = text.clone();
    for _ in 0..random.below(5) {
        related::rewrite(random, &mut other);
    }
    written_pair(random, [text, other])
}

/// A text and the same with up to so many changes, both inside up to so many
/// sessions that are handed over.
fn changed(random: &mut Random, changes: usize, layers: usize) -> Pair {
    let (text, labels) = any_text(random);
    let mut texts = [text.clone(), text];
    for _ in 0..random.below(3) {
        related::rewrite(random, &mut texts[0]);
    }
    for _ in 0..random.between(1, changes) {
        related::change(random, &mut texts[1], &labels);
    }
    if layers > 0 {
        let layers = random.between(1, layers);
        related::wrap_both(random, &mut texts, layers);
    }
    written_pair(random, texts)
}

fn large_texts(random: &mut Random) -> Pair {
    let labels = good::labels(random);
    let size = good::Size {
        definitions: random.between(1, 40),
        nodes: random.between(40, 60),
        depth: random.between(4, 16),
    };
    let text = good::text(random, size, &labels);
    let mut other = text.clone();
    for _ in 0..random.below(3) {
        related::change(random, &mut other, &labels);
    }
    written_pair(random, [text, other])
}

fn chains(random: &mut Random) -> Pair {
    let texts = runs::chains(random);
    written_pair(random, texts)
}

/// Here the sides are not exchanged: the trap is laid for the first as new.
fn rings(random: &mut Random, odd_turns: bool) -> Pair {
    let [first, second] = runs::rings(random, odd_turns);
    let second = if random.chance(1, 2) { related::dual(random, &second) } else { second };
    (written(random, &first), written(random, &second))
}

// Texts at fault

/// A faulty text as the first, as the second, or beside another.
fn placed(random: &mut Random, faulty: [Vec<u8>; 2], good: Vec<u8>) -> Pair {
    let [one, other] = faulty;
    match random.below(5) {
        0..=1 => (one, good),
        2..=3 => (good, one),
        _ => (one, other),
    }
}

fn damaged(random: &mut Random, damage: fn(&mut Random, &mut Vec<u8>)) -> Pair {
    let (text, _) = any_text(random);
    let faulty = [0, 1].map(|_| {
        let mut bytes = written(random, &text);
        for _ in 0..*random.pick(&[1, 1, 1, 2, 3]) {
            damage(random, &mut bytes);
        }
        bytes
    });
    let good = if random.chance(1, 2) { related::dual(random, &text) } else { text };
    let good = written(random, &good);
    placed(random, faulty, good)
}

fn limited(random: &mut Random, limit: fn(&mut Random) -> Vec<u8>) -> Pair {
    let one = limit(random);
    // The same again, so that the largest texts are also compared.
    if random.chance(1, 5) {
        return (one.clone(), one);
    }
    let other = limit(random);
    let good = small_bytes(random);
    placed(random, [one, other], good)
}

fn misnamed(random: &mut Random, misname: fn(&mut Random, &mut Text)) -> Pair {
    let faulty = [0, 1].map(|_| {
        let (mut text, _) = any_text(random);
        misname(random, &mut text);
        written(random, &text)
    });
    let good = small_bytes(random);
    placed(random, faulty, good)
}

fn random_bytes(random: &mut Random) -> Pair {
    (noise::bytes(random), noise::bytes(random))
}

fn random_bytes_beside(random: &mut Random) -> Pair {
    let good = small_bytes(random);
    if random.chance(1, 3) {
        return (noise::bytes(random), good);
    }
    // After a good text too: blanks alone leave it good.
    let mut second = if random.chance(1, 2) { good.clone() } else { Vec::new() };
    second.extend(noise::bytes(random));
    (good, second)
}

fn random_tokens_beside(random: &mut Random) -> Pair {
    let faulty = [noise::tokens(random), noise::tokens(random)];
    let good = small_bytes(random);
    placed(random, faulty, good)
}
