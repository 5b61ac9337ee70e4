//! From one text another that is close to it: written otherwise with the same
//! meaning, changed in a small place, wrapped into sessions, or its dual.

use super::random::Random;
use super::written::*;

// Same meaning, other text

/// Writes the text otherwise: the verdict on it stays, though nodes may get
/// other numbers and a loop may be met in another place.
pub fn rewrite(random: &mut Random, text: &mut Text) {
    match random.below(7) {
        0 => reorder_labels(random, text),
        1 => unfold(random, text),
        2 => fold(random, text),
        3 => unroll(random, text),
        4 => lead_through_a_name(random, text),
        5 => rename_definitions(random, text),
        _ => define_what_nothing_reaches(random, text),
    }
}

fn reorder_labels(random: &mut Random, text: &mut Text) {
    text.for_each_mut(&mut |part| {
        if let Type::Choice { branches, .. } = part {
            random.shuffle(branches);
        }
    });
}

/// Puts a definition's body in the place of its name.
fn unfold(random: &mut Random, text: &mut Text) {
    let bodies: Vec<Type> =
        text.definitions.iter().map(|definition| definition.body.clone()).collect();
    if let Some(part) = text.any(random, &is_name) {
        if let Type::Name(number) = part {
            *part = bodies[*number].clone();
        }
    }
}

/// Makes a definition of a part and puts its name there.
fn fold(random: &mut Random, text: &mut Text) {
    let name = Type::Name(text.definitions.len());
    if let Some(part) = text.any(random, &is_node) {
        let body = std::mem::replace(part, name);
        text.define(random, body);
    }
}

/// Defines a body once more and leads some of its uses there, so that a loop
/// is gone round more than once before it closes.
fn unroll(random: &mut Random, text: &mut Text) {
    let unrolled = random.below(text.definitions.len());
    let body = text.definitions[unrolled].body.clone();
    let copy = text.define(random, body);
    text.for_each_mut(&mut |part| {
        if matches!(part, Type::Name(number) if *number == unrolled) && random.chance(1, 2) {
            *part = Type::Name(copy);
        }
    });
}

fn lead_through_a_name(random: &mut Random, text: &mut Text) {
    let between = text.definitions.len();
    let mut body = None;
    if let Some(part) = text.any(random, &is_name) {
        body = Some(std::mem::replace(part, Type::Name(between)));
    }
    if let Some(body) = body {
        text.define(random, body);
    }
}

fn rename_definitions(random: &mut Random, text: &mut Text) {
    for number in 0..text.definitions.len() {
        if random.chance(1, 2) {
            text.definitions[number].name = text.fresh_name(random);
        }
    }
}

fn define_what_nothing_reaches(random: &mut Random, text: &mut Text) {
    let then = Type::Name(random.below(text.definitions.len()));
    let items = if random.chance(1, 2) { vec![Item::Session(Type::End)] } else { Vec::new() };
    let sent = random.chance(1, 2);
    text.define(random, Type::message(sent, items, then));
}

// Another meaning

/// Changes one small thing, anywhere.
pub fn change(random: &mut Random, text: &mut Text, labels: &[Word]) {
    match random.below(16) {
        0..=4 => change_labels(random, text, labels),
        5..=8 => change_items(random, text),
        9 => exchange_sides(random, text, &is_message),
        10..=11 => exchange_sides(random, text, &is_choice),
        12 => replace_a_part(random, text),
        13 => lead_elsewhere(random, text),
        _ => swap_branches(random, text),
    }
}

fn change_labels(random: &mut Random, text: &mut Text, labels: &[Word]) {
    let target = Type::Name(random.below(text.definitions.len()));
    let label = random.pick(labels).clone();
    let way = random.below(3);
    let place = random.below(1 << 16);
    let Some(Type::Choice { branches, .. }) = text.any(random, &is_choice) else {
        return;
    };
    let listed = branches.iter().any(|branch| branch.label == label);
    let place = place % branches.len();
    match way {
        0 if !listed => branches.insert(place, Branch { label, then: target }),
        1 if !listed => branches[place].label = label,
        _ if branches.len() > 1 => {
            branches.remove(place);
        }
        _ => {}
    }
}

fn change_items(random: &mut Random, text: &mut Text) {
    let session = Item::Session(Type::Name(random.below(text.definitions.len())));
    let sort = Item::Sort(random.below(SORTS.len()));
    let item = if random.chance(1, 2) { session } else { sort };
    let way = random.below(4);
    let place = random.below(1 << 16);
    let Some(Type::Message { items, .. }) = text.any(random, &is_message) else {
        return;
    };
    let place = place % (items.len() + 1);
    match way {
        0 if items.len() < 4 => items.insert(place, item),
        1 if place < items.len() => {
            items.remove(place);
        }
        _ if place < items.len() => items[place] = item,
        _ => {}
    }
}

/// `!` for `?`, `&` for `+`, or the other way.
fn exchange_sides(random: &mut Random, text: &mut Text, fits: &dyn Fn(&Type) -> bool) {
    match text.any(random, fits) {
        Some(Type::Message { sent, .. }) => *sent = !*sent,
        Some(Type::Choice { by_host, .. }) => *by_host = !*by_host,
        _ => {}
    }
}

fn replace_a_part(random: &mut Random, text: &mut Text) {
    let name = Type::Name(random.below(text.definitions.len()));
    let part = match random.below(3) {
        0 => Type::End,
        1 => Type::message(random.chance(1, 2), Vec::new(), name),
        _ => Type::message(random.chance(1, 2), vec![Item::Session(Type::End)], name),
    };
    if let Some(there) = text.any(random, &|_| true) {
        *there = part;
    }
}

fn lead_elsewhere(random: &mut Random, text: &mut Text) {
    let name = Type::Name(random.below(text.definitions.len()));
    if let Some(part) = text.any(random, &is_name) {
        *part = name;
    }
}

/// Lets two labels of a choice lead where the other led.
fn swap_branches(random: &mut Random, text: &mut Text) {
    let places = [random.below(1 << 16), random.below(1 << 16)];
    let Some(Type::Choice { branches, .. }) = text.any(random, &is_choice) else {
        return;
    };
    let [one, other] = places.map(|place| place % branches.len());
    if one != other {
        let label = branches[one].label.clone();
        branches[one].label = std::mem::replace(&mut branches[other].label, label);
    }
}

// Inside sessions that are handed over

/// The same session items around the start of both texts. An odd number of
/// those that are sent brings a pair of the texts into turn 1.
pub fn wrap_both(random: &mut Random, texts: &mut [Text; 2], layers: usize) {
    for _ in 0..layers {
        let sent = random.chance(2, 3);
        let before = random.below(3);
        let sorts: Vec<Item> = (0..before).map(|_| Item::Sort(random.below(SORTS.len()))).collect();
        let goes_on = random.chance(1, 4);
        for text in texts.iter_mut() {
            let inside = Type::Name(text.start);
            let mut items = sorts.clone();
            items.push(Item::Session(inside.clone()));
            let then = if goes_on { inside } else { Type::End };
            text.start = text.define(random, Type::message(sent, items, then));
        }
    }
}

// The dual

/// A text whose dual means what this text means. Session items are not turned,
/// so with any of them the definitions are written twice, turned and as they are.
pub fn dual(random: &mut Random, text: &Text) -> Text {
    let count = text.definitions.len();
    let mut dual = text.clone();
    if text.count(&has_session_item) == 0 {
        for definition in &mut dual.definitions {
            turn(&mut definition.body, 0);
        }
        return dual;
    }
    for number in 0..count {
        let mut body = text.definitions[number].body.clone();
        turn(&mut body, count);
        dual.define(random, body);
    }
    dual.start = count + text.start;
    dual.keep_reached();
    dual
}

fn has_session_item(part: &Type) -> bool {
    match part {
        Type::Message { items, .. } => items.iter().any(|item| item.session().is_some()),
        _ => false,
    }
}

/// Turns a type round; the turned definitions begin at `turned`.
fn turn(part: &mut Type, turned: usize) {
    match part {
        Type::End | Type::Word(_) => {}
        Type::Name(number) => *number += turned,
        Type::Message { sent, then, .. } => {
            *sent = !*sent;
            turn(then, turned);
        }
        Type::Choice { by_host, branches } => {
            *by_host = !*by_host;
            for branch in branches {
                turn(&mut branch.then, turned);
            }
        }
    }
}
