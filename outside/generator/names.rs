//! Texts whose names or labels are at fault: used and never defined, leading
//! round, defined twice, listed twice.

use super::random::Random;
use super::written::*;

/// One name or two, used once or more.
pub fn use_undefined(random: &mut Random, text: &mut Text) {
    let words = [text.fresh_name(random), text.fresh_name(random)];
    for _ in 0..random.between(1, 3) {
        let word = random.pick(&words).clone();
        // In the place of a name; a text without names has an `end`.
        let fits: fn(&Type) -> bool = if text.count(&is_name) > 0 { is_name } else { is_end };
        if let Some(part) = text.any(random, &fits) {
            *part = Type::Word(word);
        }
    }
}

/// A round of names, perhaps with names that lead into it, perhaps in use.
pub fn lead_round(random: &mut Random, text: &mut Text) {
    let first = text.definitions.len();
    let length = random.between(1, 4);
    for number in 0..length {
        text.define(random, Type::Name(first + (number + 1) % length));
    }
    for _ in 0..random.below(3) {
        let into = Type::Name(first + random.below(length));
        let number = text.define(random, into);
        if random.chance(1, 6) {
            text.start = number;
        }
    }
    if random.chance(1, 2) {
        let round = Type::Name(random.between(first, text.definitions.len() - 1));
        if let Some(part) = text.any(random, &is_name) {
            *part = round;
        }
    }
}

pub fn define_twice(random: &mut Random, text: &mut Text) {
    for _ in 0..random.between(1, 2) {
        let name = random.pick(&text.definitions).name.clone();
        let body = if random.chance(1, 2) { Type::End } else { Type::Name(0) };
        text.definitions.push(Definition { name, body });
    }
}

pub fn list_twice(random: &mut Random, text: &mut Text) {
    let place = random.below(1 << 16);
    let from = random.below(1 << 16);
    match text.any(random, &is_choice) {
        Some(Type::Choice { branches, .. }) => {
            let copy = branches[from % branches.len()].clone();
            branches.insert(place % (branches.len() + 1), copy);
        }
        _ => {
            let branch = Branch { label: b"m".to_vec(), then: Type::End };
            text.define(
                random,
                Type::Choice { by_host: true, branches: vec![branch.clone(), branch] },
            );
        }
    }
}

/// Two or three of these faults in one text.
pub fn several(random: &mut Random, text: &mut Text) {
    for _ in 0..random.between(2, 3) {
        match random.below(4) {
            0 => use_undefined(random, text),
            1 => lead_round(random, text),
            2 => define_twice(random, text),
            _ => list_twice(random, text),
        }
    }
}
