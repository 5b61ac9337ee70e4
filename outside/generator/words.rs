//! Words for labels and definitions' names, chosen to be easily taken for one
//! another: for reserved words, for beginnings of each other, for other cases.

use super::random::Random;
use super::written::Word;

const SHORT: &str = "a b c d m x y z ok no go up A B";

const ALIKE: &str = "ab aB Ab a1 a_ a11 abc abcd stop sum bad late reset \
    End END en ends end_ String strin strings floa float1 Boolean booleans voi Void \
    abcdefghijklmno1 abcdefghijklmno2 abcdefghijklmno";

/// Distinct words, at least `count` of them, in any order.
pub fn words(random: &mut Random, count: usize) -> Vec<Word> {
    let alike = if random.chance(1, 2) { ALIKE } else { "" };
    let listed = SHORT.split_whitespace().chain(alike.split_whitespace());
    let mut list: Vec<Word> = listed.map(|word| word.as_bytes().to_vec()).collect();
    random.shuffle(&mut list);
    for number in list.len()..count {
        list.push(format!("w{number}").into_bytes());
    }
    list
}
