//! Bytes and tokens by chance.

use super::blanks::{joined, BLANKS};
use super::damage::{any_byte, TOKENS};
use super::random::Random;

/// Random bytes.
pub fn bytes(random: &mut Random) -> Vec<u8> {
    let length = if random.chance(1, 200) { random.between(4000, 4200) } else { random.below(40) };
    let way = random.below(4);
    let byte = |_| match way {
        0 => *random.pick(BLANKS),
        1 => random.below(256) as u8,
        2 if random.chance(1, 10) => 0,
        _ => any_byte(random),
    };
    (0..length).map(byte).collect()
}

/// Random tokens, often behind the beginning of a definition so that they are
/// not all refused at once.
pub fn tokens(random: &mut Random) -> Vec<u8> {
    let beginnings: [&[u8]; 7] =
        [b"", b"A=", b"A=+{a:", b"A=?(", b"A=![a,", b"A=end.", b"A=&{a:end|b:"];
    let beginning = random.pick(&beginnings);
    let list: Vec<Vec<u8>> = (0..random.below(16)).map(|_| random.pick(&TOKENS).to_vec()).collect();
    [beginning, &joined(&list)[..]].concat()
}
