//! Two texts whose first mismatch, if there is one, lies far from the starts.
//!
//! A chain goes straight to it. Two rings go round side by side, and the
//! mismatch is only where one certain node of the one meets one certain node of
//! the other: with lengths that have little in common that takes many rounds.

use super::random::Random;
use super::written::*;

/// One place of the pattern that both sides follow. Going on from it is one
/// step: into the continuation, into a session item, or along a label.
#[derive(Clone)]
enum Place {
    Message {
        sent: bool,
        sorts: Vec<Item>,
    },
    /// The way on is handed over as an item, after some sorts.
    HandOver {
        sent: bool,
        sorts: Vec<Item>,
    },
    Choice {
        by_host: bool,
    },
}

fn any_place(random: &mut Random, choices: usize) -> Place {
    if random.chance(choices, 6) {
        return Place::Choice { by_host: random.chance(1, 2) };
    }
    let sent = random.chance(1, 2);
    let sorts = (0..random.below(4)).map(|_| Item::Sort(random.below(SORTS.len()))).collect();
    if random.chance(1, 2) {
        Place::Message { sent, sorts }
    } else {
        Place::HandOver { sent, sorts }
    }
}

fn turns(place: &Place) -> bool {
    matches!(place, Place::HandOver { sent: true, .. })
}

fn named(prefix: &str, number: usize, body: Type) -> Definition {
    Definition { name: format!("{prefix}{number}").into_bytes(), body }
}

fn branch(label: &str, then: Type) -> Branch {
    Branch { label: label.as_bytes().to_vec(), then }
}

// Chains

/// Two chains that go the same way and differ at their ends.
pub fn chains(random: &mut Random) -> [Text; 2] {
    let length = random.between(3, 59);
    let pattern: Vec<Place> = (0..length).map(|_| any_place(random, 2)).collect();
    let ends = different_ends(random);
    ends.map(|end| chain(random, &pattern, end))
}

/// Definitions 0 to length - 1 are the way, then come the end of the way and a
/// plain `end` for all that leads aside.
fn chain(random: &mut Random, pattern: &[Place], end: Type) -> Text {
    let aside = pattern.len() + 1;
    let mut definitions = Vec::new();
    for (number, place) in pattern.iter().enumerate() {
        let on = Type::Name(number + 1);
        let body = match place {
            Place::Choice { by_host } => {
                let mut branches = vec![branch("go", on), branch("off", Type::Name(aside))];
                random.shuffle(&mut branches);
                Type::Choice { by_host: *by_host, branches }
            }
            _ => message(place, on, aside),
        };
        definitions.push(named("C", number, body));
    }
    definitions.push(named("C", pattern.len(), end));
    definitions.push(named("C", aside, Type::End));
    Text { definitions, start: 0 }
}

fn message(place: &Place, on: Type, aside: usize) -> Type {
    match place {
        Place::Message { sent, sorts } => Type::message(*sent, sorts.clone(), on),
        Place::HandOver { sent, sorts } => {
            let mut items = sorts.clone();
            items.push(Item::Session(on));
            Type::message(*sent, items, Type::Name(aside))
        }
        Place::Choice { .. } => unreachable!("a choice is no message"),
    }
}

/// Two types of every reason to differ.
fn different_ends(random: &mut Random) -> [Type; 2] {
    let sent = random.chance(1, 2);
    let by_host = random.chance(1, 2);
    let of = |items: Vec<Item>| Type::message(sent, items, Type::End);
    let mut ends = match random.below(5) {
        0 => [Type::End, of(Vec::new())],
        1 => [of(vec![Item::Sort(0)]), of(Vec::new())],
        2 => [of(vec![Item::Sort(2), Item::Sort(0)]), of(vec![Item::Sort(2), Item::Sort(1)])],
        3 => [of(vec![Item::Session(Type::End)]), of(vec![Item::Sort(3)])],
        _ => {
            let narrow = vec![branch("a", Type::End)];
            let wide = vec![branch("b", Type::End), branch("a", Type::End)];
            [narrow, wide].map(|branches| Type::Choice { by_host, branches })
        }
    };
    random.shuffle(&mut ends);
    ends
}

// Rings

/// What the nodes of one side's ring list in their choices.
struct Listing {
    /// Everywhere but at the trap.
    usual: Vec<&'static str>,
    at_trap: Vec<&'static str>,
}

/// How far the label `skip` goes on, in whole patterns; 0 for no such label.
struct Ring {
    length: usize,
    trap: usize,
    skip: usize,
}

/// Two rings after one pattern. If the pattern turns an even number of times,
/// each place has its turn for good, and the trap is one pair of nodes: the
/// chooser lists `z` at one node only and the other side lacks it at one only.
/// If it turns an odd number of times, both turns come to each place; then the
/// trap is one node of one side, and it shuts in one of the turns.
pub fn rings(random: &mut Random, odd_turns: bool) -> [Text; 2] {
    let (pattern, trap_place) = pattern(random, odd_turns);
    let period = pattern.len();
    let most = *random.pick(&[16, 24, 24, 36, 36, 36, 50, 63]);
    let lengths = [0, 1].map(|_| period * random.between(1, (most / period).max(2)));
    let with_skips = random.chance(1, 4);
    let rings = lengths.map(|length| Ring {
        length,
        trap: trap_place + period * random.below(length / period),
        skip: if with_skips { random.between(1, 3) } else { 0 },
    });
    let listings = if odd_turns {
        one_node_trap(random)
    } else {
        two_node_trap(chooser(&pattern, trap_place))
    };
    let with_back = random.chance(1, 3);
    let [new, old] = rings;
    let [new_listing, old_listing] = listings;
    [
        ring(random, &pattern, &new, &new_listing, trap_place, with_back),
        ring(random, &pattern, &old, &old_listing, trap_place, with_back),
    ]
}

/// A pattern with the wanted number of turns and a choice for the trap.
fn pattern(random: &mut Random, odd_turns: bool) -> (Vec<Place>, usize) {
    let turning = || Place::HandOver { sent: true, sorts: Vec::new() };
    let period = random.between(1, 4);
    let mut pattern: Vec<Place> = (0..period).map(|_| any_place(random, 2)).collect();
    let mut trap_place = random.below(pattern.len());
    pattern[trap_place] = Place::Choice { by_host: random.chance(1, 2) };
    if random.chance(1, 2) {
        // A turn more before the trap, so that traps in turn 1 are no rarer.
        pattern.insert(trap_place, turning());
        trap_place += 1;
    }
    let odd = pattern.iter().filter(|place| turns(place)).count() % 2 == 1;
    if odd != odd_turns {
        pattern.push(turning());
    }
    (pattern, trap_place)
}

/// Which side chooses at a place: 0 for the new one. "For `+` the right lists,
/// for `&` the left"; the left is the new one's in turn 0.
fn chooser(pattern: &[Place], at: usize) -> usize {
    let turn = pattern[..at].iter().filter(|place| turns(place)).count() % 2;
    match pattern[at] {
        Place::Choice { by_host: true } => 1 - turn,
        _ => turn,
    }
}

fn two_node_trap(chooser: usize) -> [Listing; 2] {
    let choosing = Listing { usual: vec!["off"], at_trap: vec!["off", "z"] };
    let having = Listing { usual: vec!["off", "z", "more"], at_trap: vec!["off", "more"] };
    if chooser == 0 {
        [choosing, having]
    } else {
        [having, choosing]
    }
}

fn one_node_trap(random: &mut Random) -> [Listing; 2] {
    let plain = || Listing { usual: vec!["off", "z"], at_trap: vec!["off", "z"] };
    let trap = match random.below(3) {
        0 => plain(),
        1 => Listing { at_trap: vec!["off"], ..plain() },
        _ => Listing { at_trap: vec!["off", "more", "z"], ..plain() },
    };
    let mut listings = [plain(), trap];
    random.shuffle(&mut listings);
    listings
}

/// Definitions 0 to length - 1 are the ring, the last a plain `end`. Choices
/// outside the trap's place list the same on both sides.
fn ring(
    random: &mut Random,
    pattern: &[Place],
    ring: &Ring,
    listing: &Listing,
    trap_place: usize,
    with_back: bool,
) -> Text {
    let aside = ring.length;
    let mut definitions = Vec::new();
    let mut turned = false;
    for number in 0..ring.length {
        let at = number % pattern.len();
        let on = (number + 1) % ring.length;
        let body = match &pattern[at] {
            Place::Choice { by_host } => {
                let mut branches = vec![branch("go", Type::Name(on))];
                let listed: &[&str] = match (at == trap_place, number == ring.trap) {
                    (true, true) => &listing.at_trap,
                    (true, false) => &listing.usual,
                    _ => &["off"],
                };
                branches.extend(listed.iter().map(|label| branch(label, Type::Name(aside))));
                if ring.skip > 0 {
                    let far = (on + ring.skip * pattern.len()) % ring.length;
                    branches.push(branch("skip", Type::Name(far)));
                }
                // Back to the starts, where the turn is the one of the starts.
                if with_back && !turned {
                    branches.push(branch("back", Type::Name(0)));
                }
                random.shuffle(&mut branches);
                Type::Choice { by_host: *by_host, branches }
            }
            place => message(place, Type::Name(on), aside),
        };
        definitions.push(named("R", number, body));
        turned = if at + 1 == pattern.len() { false } else { turned ^ turns(&pattern[at]) };
    }
    definitions.push(named("R", aside, Type::End));
    Text { definitions, start: 0 }
}
