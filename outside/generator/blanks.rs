//! Blanks in a text, and the tokens between them.

use super::random::Random;

pub const BLANKS: &[u8] = b" \t\n\r";

pub fn in_word(byte: u8) -> bool {
    byte.is_ascii_alphanumeric() || byte == b'_'
}

/// The words and single bytes of a text, blanks left out.
pub fn tokens(text: &[u8]) -> Vec<Vec<u8>> {
    let mut list: Vec<Vec<u8>> = Vec::new();
    let mut continues = false;
    for byte in text {
        if BLANKS.contains(byte) {
            continues = false;
            continue;
        }
        match list.last_mut() {
            Some(word) if continues && in_word(*byte) => word.push(*byte),
            _ => list.push(vec![*byte]),
        }
        continues = in_word(*byte);
    }
    list
}

/// The tokens one after the other, with a space between two words.
pub fn joined(tokens: &[Vec<u8>]) -> Vec<u8> {
    let mut text: Vec<u8> = Vec::new();
    for token in tokens {
        let meets = text.last().is_some_and(|last| in_word(*last)) && in_word(token[0]);
        if meets {
            text.push(b' ');
        }
        text.extend(token);
    }
    text
}

/// The text with blanks before, between and after its tokens: none, a space
/// everywhere, a blank here and there, or many.
pub fn sprinkled(random: &mut Random, text: &[u8]) -> Vec<u8> {
    let (part, whole, most) =
        *random.pick(&[(0, 1, 1), (0, 1, 1), (1, 1, 1), (1, 4, 1), (1, 8, 1), (1, 2, 3)]);
    if part == 0 {
        return text.to_vec();
    }
    let only_spaces = random.chance(1, 3);
    let mut bytes = Vec::with_capacity(2 * text.len());
    for place in 0..=text.len() {
        let inside_word =
            place > 0 && place < text.len() && in_word(text[place - 1]) && in_word(text[place]);
        if !inside_word && random.chance(part, whole) {
            for _ in 0..random.between(1, most) {
                bytes.push(if only_spaces { b' ' } else { *random.pick(BLANKS) });
            }
        }
        bytes.extend(text.get(place));
    }
    bytes
}

/// The text made so long by blanks in one place, or in several.
pub fn padded(random: &mut Random, text: &[u8], length: usize) -> Vec<u8> {
    let mut bytes = text.to_vec();
    while bytes.len() < length {
        let missing = length - bytes.len();
        let more = if random.chance(1, 2) { missing } else { random.between(1, missing) };
        let blanks: Vec<u8> = (0..more).map(|_| *random.pick(BLANKS)).collect();
        let place = any_gap(random, &bytes);
        bytes.splice(place..place, blanks);
    }
    bytes
}

/// A place before, between or after tokens.
fn any_gap(random: &mut Random, text: &[u8]) -> usize {
    loop {
        let place = match random.below(3) {
            0 => 0,
            1 => text.len(),
            _ => random.between(0, text.len()),
        };
        let inside_word =
            place > 0 && place < text.len() && in_word(text[place - 1]) && in_word(text[place]);
        if !inside_word {
            return place;
        }
    }
}
