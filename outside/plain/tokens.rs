//! The tokens of a text (document 01, "The notation").

use crate::tables::Sort;

#[derive(Clone, Copy, PartialEq, Eq, Debug)]
pub enum Kind {
    /// A word that is not reserved. It may be over-long: for refusal 2 such a
    /// word is an ordinary one ("all other refusals left aside").
    Word,
    End,
    Sort(Sort),
    /// "Every other token is one byte." It may be a byte that no text of the
    /// notation has anywhere; the reader refuses it at its place.
    Byte(u8),
    /// The end of the text; its place is the text's length.
    Finish,
}

#[derive(Clone, Copy, Debug)]
pub struct Token {
    pub kind: Kind,
    pub place: usize,
    pub length: usize,
}

const RESERVED: [(&[u8], Kind); 5] = [
    (b"end", Kind::End),
    (b"string", Kind::Sort(Sort::String)),
    (b"float", Kind::Sort(Sort::Float)),
    (b"boolean", Kind::Sort(Sort::Boolean)),
    (b"void", Kind::Sort(Sort::Void)),
];

/// All tokens of the text in order, the last being `Finish`.
pub fn tokens(text: &[u8]) -> Vec<Token> {
    let mut list = Vec::with_capacity(text.len() + 1);
    let mut place = 0;
    while place < text.len() {
        let byte = text[place];
        if is_blank(byte) {
            place += 1;
            continue;
        }
        let length = if byte.is_ascii_alphabetic() { word_length(&text[place..]) } else { 1 };
        let kind = kind_of(&text[place..place + length]);
        list.push(Token { kind, place, length });
        place += length;
    }
    list.push(Token { kind: Kind::Finish, place: text.len(), length: 0 });
    list
}

fn is_blank(byte: u8) -> bool {
    matches!(byte, b' ' | b'\t' | b'\n' | b'\r')
}

fn word_length(rest: &[u8]) -> usize {
    let continues = |byte: &u8| byte.is_ascii_alphanumeric() || *byte == b'_';
    rest.iter().take_while(|byte| continues(byte)).count()
}

fn kind_of(bytes: &[u8]) -> Kind {
    if !bytes[0].is_ascii_alphabetic() {
        return Kind::Byte(bytes[0]);
    }
    let reserved = RESERVED.iter().find(|(word, _)| *word == bytes);
    reserved.map_or(Kind::Word, |(_, kind)| *kind)
}

#[cfg(test)]
mod tests {
    use super::*;

    fn kinds(text: &[u8]) -> Vec<Kind> {
        tokens(text).iter().map(|token| token.kind).collect()
    }

    #[test]
    fn blanks_are_four_bytes_and_needed_only_between_words() {
        assert_eq!(kinds(b" \t\n\r"), [Kind::Finish]);
        assert_eq!(kinds(b"A=end."), kinds(b"\tA\n=\rend ."));
        assert_eq!(kinds(b"A\x0b"), [Kind::Word, Kind::Byte(0x0b), Kind::Finish]);
        assert_eq!(kinds(b"A B"), [Kind::Word, Kind::Word, Kind::Finish]);
        assert_eq!(kinds(b"AB"), [Kind::Word, Kind::Finish]);
    }

    #[test]
    fn a_word_begins_with_a_letter() {
        assert_eq!(kinds(b"a1_Z9"), [Kind::Word, Kind::Finish]);
        assert_eq!(kinds(b"1a"), [Kind::Byte(b'1'), Kind::Word, Kind::Finish]);
        assert_eq!(kinds(b"_a"), [Kind::Byte(b'_'), Kind::Word, Kind::Finish]);
        assert_eq!(kinds("é".as_bytes()), [Kind::Byte(0xc3), Kind::Byte(0xa9), Kind::Finish]);
    }

    #[test]
    fn reserved_words_count_case_and_length() {
        assert_eq!(kinds(b"end"), [Kind::End, Kind::Finish]);
        assert_eq!(kinds(b"string"), [Kind::Sort(Sort::String), Kind::Finish]);
        assert_eq!(kinds(b"float"), [Kind::Sort(Sort::Float), Kind::Finish]);
        assert_eq!(kinds(b"boolean"), [Kind::Sort(Sort::Boolean), Kind::Finish]);
        assert_eq!(kinds(b"void"), [Kind::Sort(Sort::Void), Kind::Finish]);
        for word in [&b"End"[..], b"ends", b"en", b"strings", b"void_", b"float1"] {
            assert_eq!(kinds(word), [Kind::Word, Kind::Finish]);
        }
    }

    #[test]
    fn places_are_first_bytes() {
        let places: Vec<usize> = tokens(b" A  = end . ").iter().map(|token| token.place).collect();
        assert_eq!(places, [1, 4, 6, 10, 12]);
    }
}
