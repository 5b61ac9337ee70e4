//! Texts with something broken in them: a byte, a token, or the rest missing.

use super::blanks::{joined, tokens};
use super::random::Random;

/// Tokens to put in a wrong place, those of the notation and some that are none.
pub const TOKENS: [&[u8]; 34] = [
    b"=",
    b".",
    b";",
    b":",
    b"|",
    b",",
    b"?",
    b"!",
    b"&",
    b"+",
    b"(",
    b")",
    b"[",
    b"]",
    b"{",
    b"}",
    b"?(",
    b"![",
    b"+{",
    b"&{",
    b"end",
    b"string",
    b"float",
    b"boolean",
    b"void",
    b"A",
    b"a",
    b"b",
    b"_",
    b"7",
    b"abcdefghijklmno1",
    b"abcdefghijklmno12",
    b"@",
    b"\x80",
];

/// Bytes that may come instead of another.
const BYTES: &[u8] = b"=.;:|,?!&+()[]{}ab_01AZ \t\n\r\x0b\x0c\x00\x01\x7f\x80\xff@-";

pub fn any_byte(random: &mut Random) -> u8 {
    if random.chance(3, 4) {
        *random.pick(BYTES)
    } else {
        random.below(256) as u8
    }
}

/// One byte changed, dropped, doubled, swapped with the next, or put in.
pub fn byte(random: &mut Random, text: &mut Vec<u8>) {
    if text.is_empty() {
        return;
    }
    let place = random.below(text.len());
    match random.below(5) {
        0 => text[place] = any_byte(random),
        1 => {
            text.remove(place);
        }
        2 => text.insert(place, text[place]),
        3 => {
            let next = (place + 1) % text.len();
            text.swap(place, next);
        }
        _ => text.insert(place, any_byte(random)),
    }
}

/// The same with a token; blanks are lost.
pub fn token(random: &mut Random, text: &mut Vec<u8>) {
    let mut list = tokens(text);
    if list.is_empty() {
        return;
    }
    let place = random.below(list.len());
    match random.below(6) {
        0 => {
            list.remove(place);
        }
        1 => list.insert(place, list[place].clone()),
        2 => {
            let next = (place + 1) % list.len();
            list.swap(place, next);
        }
        3 => {
            let other = random.below(list.len());
            list.swap(place, other);
        }
        4 => list[place] = random.pick(&TOKENS).to_vec(),
        _ => list.insert(place, random.pick(&TOKENS).to_vec()),
    }
    *text = joined(&list);
}

/// The text only up to some byte.
pub fn truncate(random: &mut Random, text: &mut Vec<u8>) {
    let length = random.below(text.len() + 1);
    text.truncate(length);
}
