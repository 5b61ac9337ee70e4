//! What document 01 prints or says, and the readings of its open places, with
//! answers written by hand.

use crate::by_definition::{
    first_run, marks_are_the_reached_pairs, some_set_holds_the_starts, starts, Named,
};
use crate::*;

const R: &str = "R = +{sum: ![string]; &{ok: ?(float); R | bad: R} | stop: end} .";
const N: &str = "N = +{sum: ![string]; &{ok: ?(float); N | late: N} | stop: end} .";
const M: &str = "M = +{sum: ![string]; &{ok: ?(float); M} | stop: end | reset: M} .";
const P: &str = "P = ![+{a: end}]; end .";
const Q: &str = "Q = ![+{a: end | b: end}]; end .";

fn verdict(new: &str, old: &str) -> String {
    String::from_utf8(verdict_line(new.as_bytes(), old.as_bytes())).unwrap()
}

fn compatible(new: &str, other: &str) -> String {
    String::from_utf8(compatible_line(new.as_bytes(), other.as_bytes())).unwrap()
}

fn table(text: &str) -> Table {
    read(text.as_bytes()).unwrap_or_else(|refusal| panic!("{text}: {refusal:?}"))
}

#[track_caller]
fn refused(text: &str, number: usize, place: usize) {
    assert_eq!(read(text.as_bytes()), Err(Refusal { number, place }), "{text}");
}

#[track_caller]
fn taken(text: &str) {
    table(text);
}

// The printed verdict

#[test]
fn printed_rows() {
    assert_eq!(verdict(R, R), "yes 5\n");
    assert_eq!(verdict(N, R), "no 23 1 2 2 0 0 4\n");
    assert_eq!(verdict(M, R), "yes 5\n");
    assert_eq!(verdict(R, M), "no 23 2 0 0 0\n");
    assert_eq!(verdict(P, Q), "yes 4\n");
    assert_eq!(verdict(Q, P), "no 23 1 1 1 1 0\n");
    assert_eq!(verdict("A = end .", "B = ?(); end ."), "no 20 0 0 0 0\n");
    assert_eq!(verdict("A = ?(); end .", "B = ?(void); end ."), "no 21 0 0 0 0\n");
    assert_eq!(verdict("A = ?(string); end .", "B = ?(float); end ."), "no 22 0 0 0 0\n");
    assert_eq!(verdict("A = ?(string); A .", "B = ?(string); ?(string); B ."), "yes 2\n");
}

#[test]
fn printed_texts() {
    refused("", 2, 0);
    refused("A = end", 2, 7);
    refused("A = +{} .", 2, 6);
    refused("A = ![string) .", 2, 12);
    refused("A = A .", 9, 0);
    refused("A = B .", 8, 4);
    refused("A = end . A = end .", 7, 10);
    refused("A = +{m: end | m: end} .", 6, 15);
}

#[test]
fn refused_lines() {
    assert_eq!(verdict("A = B .", "A = A ."), "refused 8 1 4\n");
    assert_eq!(verdict("A = end .", "A = A ."), "refused 9 2 0\n");
    assert_eq!(verdict("A = end .", &" ".repeat(4097)), "refused 1 2 0\n");
    assert_eq!(verdict(&" ".repeat(4097), ""), "refused 1 1 0\n");
    assert_eq!(verdict(&" ".repeat(4096), ""), "refused 2 1 4096\n");
    assert_eq!(compatible("A = end .", "A = A ."), "refused 9 2 0\n");
    assert_eq!(compatible("A = B .", "A = A ."), "refused 8 1 4\n");
}

#[test]
fn the_input_is_split_at_the_first_zero_byte() {
    assert_eq!(split(b"ab\0cd"), (&b"ab"[..], &b"cd"[..]));
    assert_eq!(split(b"ab"), (&b"ab"[..], &b""[..]));
    assert_eq!(split(b"ab\0"), (&b"ab"[..], &b""[..]));
    assert_eq!(split(b"\0ab"), (&b""[..], &b"ab"[..]));
    assert_eq!(split(b"a\0b\0c"), (&b"a"[..], &b"b\0c"[..]));
    assert_eq!(split(b""), (&b""[..], &b""[..]));
    // D12: no second text, a line feed after it, a further zero byte in it.
    let line = |input: &[u8]| {
        let (new, old) = split(input);
        String::from_utf8(verdict_line(new, old)).unwrap()
    };
    assert_eq!(line(b"A = end ."), "refused 2 2 0\n");
    assert_eq!(line(b"A = end .\0A = end .\n"), "yes 1\n");
    assert_eq!(line(b"A = end .\0A = end .\0"), "refused 2 2 9\n");
    assert_eq!(line(b"A = end .\0\0A = end ."), "refused 2 2 0\n");
    assert_eq!(line(b"A = end .\n\0A = end ."), "yes 1\n");
}

// The notation and the table

#[test]
fn blanks_and_their_absence() {
    taken("A=end.");
    taken("\r\n\tA \t=\n\nend\r.\n");
    taken("A=+{a:![string,B,?();end];B|b:B}.B=&{A:A}.");
    refused("A = e nd .", 2, 6);
}

#[test]
fn nodes_are_numbered_by_their_first_byte() {
    let read = table("A = B . B = ![+{x: A | y: end}, float]; ?(); C . C = &{z: end} .");
    let label = |start: usize| Label { start, end: start + 1 };
    let expected = [
        Node::Message {
            from: Party::Host,
            items: vec![Item::Session(1), Item::Sort(Sort::Float)],
            continuation: 3,
        },
        Node::Choice {
            by: Party::Host,
            branches: vec![
                Branch { label: label(16), link: 0 },
                Branch { label: label(23), link: 2 },
            ],
        },
        Node::End,
        Node::Message { from: Party::Card, items: vec![], continuation: 4 },
        Node::Choice { by: Party::Card, branches: vec![Branch { label: label(55), link: 5 }] },
        Node::End,
    ];
    assert_eq!(read.nodes(), expected);
    assert_eq!(read.start(), 0);
}

#[test]
fn the_first_definition_gives_the_start() {
    assert_eq!(table("A = end . B = ?(); end .").start(), 0);
    assert_eq!(table("A = C . B = ?(); C . C = D . D = end .").start(), 1);
    assert_eq!(table("A = D . B = ?(end); end . C = +{a: D} . D = C .").start(), 3);
}

#[test]
fn every_sort_and_mixed_items() {
    taken("A = ?(string, float, boolean, void); end .");
    taken("A = ![string, A, end, ?(); end]; end .");
}

// Refusals

#[test]
fn tokens_that_no_text_could_have() {
    refused("  ", 2, 2);
    refused("A", 2, 1);
    refused("A =", 2, 3);
    refused("A = end end .", 2, 8);
    refused("A = end . .", 2, 10);
    refused("A = end . B", 2, 11);
    refused("= end .", 2, 0);
    refused("end = end .", 2, 0);
    refused("A = +{end: end} .", 2, 6);
    refused("A = +{a: void} .", 2, 9);
    refused("A = +{a end} .", 2, 8);
    refused("A = +{a: end |} .", 2, 14);
    refused("A = +{a: end , b: end} .", 2, 13);
    refused("A = +{a: end) .", 2, 12);
    refused("A = &(a: end) .", 2, 5);
    refused("A = ?[]; end .", 2, 5);
    refused("A = !(); end .", 2, 5);
    refused("A = ?(]; end .", 2, 6);
    refused("A = ?(string string); end .", 2, 13);
    refused("A = ?(string,); end .", 2, 13);
    refused("A = ?(,string); end .", 2, 6);
    refused("A = ?() end .", 2, 8);
    refused("A = ?(); .", 2, 9);
    refused("A = ?(); void .", 2, 9);
    refused("A = ?(); (", 2, 9);
    refused("A = ()", 2, 4);
    refused("A = 1A .", 2, 4);
    refused("A1_ = _A .", 2, 6);
    refused("A = end ;", 2, 8);
    refused("A = end .\x00", 2, 9);
    refused("A = é .", 2, 4);
    assert_eq!(read(b"A = end\xff."), Err(Refusal { number: 2, place: 7 }));
    assert_eq!(read(b"\xef\xbb\xbfA = end ."), Err(Refusal { number: 2, place: 0 }));
}

#[test]
fn readings_of_refusals() {
    refused("A = end . A", 7, 10); // A1
    refused("A = +{m: end | m", 6, 15); // A2
    refused("A = ?(void,void,void,void,?=", 5, 26); // A3
    refused("A = ?(void,void,void,void,); end .", 2, 26); // A4
    refused("A = string .", 2, 4); // A5
    refused("A = end xxxxxxxxxxxxxxxxx", 2, 8); // A6
    refused("xxxxxxxxxxxxxxxxx = end .", 3, 0); // A7
    refused("A = ?(void,void,void,void,xxxxxxxxxxxxxxxxx); end .", 3, 26); // A8
    refused("A = end  ", 2, 9); // A9
    refused("A = end\x0b.", 2, 7); // A10
    refused("A = end\x0c.", 2, 7);
    refused("A = B . B = B .", 9, 0); // A11
    refused("A = A . B = C .", 8, 12); // A12
    refused("A = end . B = B .", 9, 10); // A13, of which level 0 has this much
    refused(&format!("A = {}?[", "+{a:".repeat(16)), 2, 69); // A14
    taken("A = +{A: A} ."); // A16
    refused("A = end . B = end . A = end . A = end .", 7, 20); // A17
}

#[test]
fn the_least_place_goes_first_and_then_the_lowest_number() {
    // 6 at 15, and later a 2, a 3, a 7.
    refused("A = +{m: end | m: = } .", 6, 15);
    refused("A = +{m: end | m: xxxxxxxxxxxxxxxxx} .", 6, 15);
    refused("A = end . A = B B .", 7, 10);
    // 3 goes before a 7 that stands later, and a 7 before a 3.
    refused("xxxxxxxxxxxxxxxxx = end . A = end . A = end .", 3, 0);
    refused("A = end . A = xxxxxxxxxxxxxxxxx .", 7, 10);
    // An over-long label that is there twice: 3 at the first.
    refused("A = +{xxxxxxxxxxxxxxxxx: end | xxxxxxxxxxxxxxxxx: end} .", 3, 6);
    // 2 to 7 before 8, 8 before 9, whatever the places.
    refused("A = B . C = end . C = end .", 7, 18);
    refused("A = A . B = +{m: end | m: end} .", 6, 23);
    refused("A = B . C = C .", 8, 4);
}

#[test]
fn names_never_defined() {
    refused("A = +{a: B | b: C} . C = D .", 8, 9);
    refused("A = end . B = ?(C, D); D . C = end .", 8, 19);
    refused("A = a .", 8, 4);
    refused("A = ?(); End .", 8, 9);
    refused("A = ends .", 8, 4);
}

#[test]
fn names_that_lead_round() {
    refused("A = B . B = C . C = A .", 9, 0);
    refused("A = end . B = C . C = D . D = C .", 9, 10);
    refused("A = ?(); B . B = B .", 9, 13);
    taken("A = ?(); A .");
    taken("A = B . B = C . C = ?(A); B .");
    // A chain of names as long as can be.
    let chain: String = (0..95).map(|name| format!("D{name} = D{} . ", name + 1)).collect();
    taken(&format!("{chain}D95 = end ."));
    refused(&format!("{chain}D95 = D0 ."), 9, 0);
    refused(&format!("{chain}D95 = D95 ."), 9, 0);
}

// Limits, each at its number and one above

#[test]
fn text_bytes() {
    let text = |bytes: usize| format!("A = end .{}", " ".repeat(bytes - 9));
    taken(&text(4096));
    refused(&text(4097), 1, 0);
    refused(&"=".repeat(4097), 1, 0);
    refused(&"=".repeat(4096), 2, 0);
}

#[test]
fn definitions() {
    let text = |count: usize| -> String {
        (0..count)
            .map(|name| if name == 0 { "D0 = end .".into() } else { format!("D{name} = D0 .") })
            .collect()
    };
    let place = text(96).len();
    taken(&text(96));
    refused(&text(97), 5, place);
    refused(&(text(96) + "E"), 5, place);
    refused(&(text(96) + "D0 = end ."), 5, place);
    refused(&(text(96) + "xxxxxxxxxxxxxxxxx"), 3, place);
    refused(&(text(96) + "end"), 2, place);
    refused(&(text(95) + "D0 = end ."), 7, text(95).len());
}

#[test]
fn nodes() {
    let text = |messages: usize| format!("A = {}end .", "?();".repeat(messages));
    taken(&text(63));
    refused(&text(64), 5, 4 + 4 * 64);
    refused(&text(65), 5, 4 + 4 * 64);
    let messages = "?();".repeat(63);
    // Nodes that nothing reaches count, names do not.
    refused(&format!("A = {messages}end . B = end ."), 5, 4 + 4 * 63 + 10);
    taken(&format!("A = {messages}end . B = A . C = B ."));
    // The 65th begun and broken; or in a place for no node.
    refused(&format!("A = {messages}?();?="), 5, 4 + 4 * 64);
    refused(&format!("A = {messages}?();)"), 2, 4 + 4 * 64);
    // The 65th is also a fifth item.
    refused(&format!("A = {}?(void,void,void,void,end", "?();".repeat(63)), 5, 4 + 4 * 63 + 22);
}

#[test]
fn labels() {
    let text = |count: usize| {
        let labels: Vec<String> = (0..count).map(|label| format!("m{label:02}:A")).collect();
        format!("A=+{{{}", labels.join("|"))
    };
    let place = text(16).len() + 1;
    taken(&(text(16) + "}."));
    refused(&(text(17) + "}."), 5, place);
    refused(&(text(16) + "|m17"), 5, place);
    refused(&(text(16) + "|m00:A}."), 5, place);
    refused(&(text(16) + "|xxxxxxxxxxxxxxxxx:A}."), 3, place);
    refused(&(text(16) + "|}."), 2, place);
    refused(&(text(15) + "|m00:A}."), 6, text(15).len() + 1);
    // Labels of other choices do not count.
    taken("A=+{a:+{a:A|b:A}|b:&{b:A|a:A}}.");
}

#[test]
fn items() {
    taken("A=?(void,void,void,void);end.");
    refused("A=?(void,void,void,void,void);end.", 5, 24);
    refused("A=![A,A,A,A,A];end.", 5, 12);
    refused("A=![A,A,A,A,?();end];end.", 5, 12);
    refused("A=![A,A,A,A", 2, 11);
    refused("A=![A,A,A,A,", 2, 12);
    // Items of an item's own message are counted apart.
    taken("A=![A,A,A,![A,A,A,A];A];end.");
    refused("A=![A,A,A,![A,A,A,A,A];A];end.", 5, 20);
}

#[test]
fn open_brackets() {
    let choices = |count: usize| format!("A={}", "+{a:".repeat(count));
    taken(&(choices(16) + "A" + &"}".repeat(16) + "."));
    refused(&(choices(17) + "A" + &"}".repeat(17) + "."), 4, 2 + 4 * 16 + 1);
    refused(&(choices(16) + "?("), 4, 2 + 4 * 16 + 1);
    refused(&(choices(16) + "!["), 4, 2 + 4 * 16 + 1);
    refused(&(choices(16) + "!("), 2, 2 + 4 * 16 + 1);
    refused(&(choices(16) + "+"), 2, 2 + 4 * 16 + 1);
    // A15: all three together, and `;` opens nothing.
    let mixed = "?(![+{a:".repeat(5);
    taken(&format!("A={mixed}?();A{}.", "}];A);A".repeat(5)));
    refused(&format!("A={mixed}?(?("), 4, 2 + 8 * 5 + 3);
    taken(&format!("A={}end.", "?(![];end);".repeat(21)));
}

#[test]
fn word_bytes() {
    let (full, over) = ("Word_of_16_bytes", "Word_of_17_bytes_");
    taken(&format!("{full}=end."));
    refused(&format!("{over}=end."), 3, 0);
    taken(&format!("A=+{{{full}:A}}."));
    refused(&format!("A=+{{{over}:A}}."), 3, 4);
    taken(&format!("A={full}.{full}=end."));
    refused(&format!("A={over}.{over}=end."), 3, 2);
    refused(&format!("A=?({over});end."), 3, 4);
    refused(&format!("A=?();{over}."), 3, 6);
    // Where no word may stand it is 2; an over-long word is never reserved.
    refused(&format!("A {over}"), 2, 2);
    refused("A = stringstringstring .", 3, 4);
    // An over-long word is one token.
    refused(&format!("A={}", "x".repeat(4000)), 3, 2);
}

// The dual

#[test]
fn a_dual_without_session_items_keeps_its_numbers() {
    let dual_of_r = dual(&table(R)).unwrap();
    let mirror = "R = &{sum: ?(string); +{ok: ![float]; R | bad: R} | stop: end} .";
    assert_eq!(dual_of_r, table(mirror));
    assert_eq!(dual(&dual_of_r).unwrap(), table(R));
    // The start keeps its number; nodes that nothing reaches are turned too.
    let late = dual(&table("A = B . C = ?(void); end . B = ![]; C .")).unwrap();
    assert_eq!(late, table("A = B . C = ![void]; end . B = ?(); C ."));
    assert_eq!(late.start(), 2);
    // The empty item list has no session item.
    assert_eq!(dual(&table("A = ?(); A .")).unwrap().nodes().len(), 1);
}

#[test]
fn a_dual_with_session_items_has_the_originals_behind() {
    let a = dual(&table("A = ![A]; end .")).unwrap();
    let expected = [
        Node::Message { from: Party::Card, items: vec![Item::Session(2)], continuation: 1 },
        Node::End,
        Node::Message { from: Party::Host, items: vec![Item::Session(2)], continuation: 3 },
        Node::End,
    ];
    assert_eq!(a.nodes(), expected);
    assert_eq!(a.start(), 0);
    // A choice too, and a session item that nothing reaches (C1).
    let b = dual(&table("A=+{x:A}.B=?(void,A);A.")).unwrap();
    let branch = |link| vec![Branch { label: Label { start: 4, end: 5 }, link }];
    let items = || vec![Item::Sort(Sort::Void), Item::Session(2)];
    let expected = [
        Node::Choice { by: Party::Card, branches: branch(0) },
        Node::Message { from: Party::Host, items: items(), continuation: 0 },
        Node::Choice { by: Party::Host, branches: branch(2) },
        Node::Message { from: Party::Card, items: items(), continuation: 2 },
    ];
    assert_eq!(b.nodes(), expected);
}

#[test]
fn a_dual_may_be_too_large() {
    let text = |nodes: usize| format!("A = ![A]; {}end .", "?();".repeat(nodes - 2));
    // 64 nodes: the dual has 128, its dual would have 256.
    let full = dual(&table(&text(64))).unwrap();
    assert_eq!(full.nodes().len(), 128);
    assert_eq!(dual(&full), Err(Refusal { number: 13, place: 128 }));
    // C3, C2: 33 nodes, 66, and then the place is 66.
    let more = dual(&table(&text(33))).unwrap();
    assert_eq!(more.nodes().len(), 66);
    assert_eq!(dual(&more), Err(Refusal { number: 13, place: 66 }));
    // 32 nodes: 64, and then 128.
    assert_eq!(dual(&dual(&table(&text(32))).unwrap()).unwrap().nodes().len(), 128);
    // C1: a session item that nothing reaches counts.
    let mut nodes = vec![Node::End; 65];
    assert_eq!(dual(&Table::new(nodes.clone(), 0)).unwrap().nodes().len(), 65);
    nodes[64] = Node::Message { from: Party::Host, items: vec![Item::Session(0)], continuation: 0 };
    assert_eq!(dual(&Table::new(nodes, 0)), Err(Refusal { number: 13, place: 65 }));
    assert_eq!(dual(&Table::new(vec![Node::End; 128], 0)).unwrap().nodes().len(), 128);
    // Without session items nothing grows.
    let plain = table(&format!("A = {}end .", "?();".repeat(63)));
    assert_eq!(dual(&plain).unwrap().nodes().len(), 64);
}

// Compatible

#[test]
fn compatible_pairs() {
    // C4
    let new = "A = ![P]; end . P = +{a:end|b:end} .";
    let other = "A = ?(P); end . P = +{a:end} .";
    assert_eq!(compatible(new, other), "no 23 1 2 6 1 0\n");
    assert_eq!(
        compatible("A = ![P]; end . P = +{a:end} .", "A = ?(P); end . P = +{a:end|b:end} ."),
        "yes 4\n"
    );
    // The same beside an other of 64 nodes: its node 62 has its original at 126.
    let other = format!("A = ?(P); {}end . P = +{{a:end}} .", "?();".repeat(60));
    assert_eq!(compatible(new, &other), "no 23 1 2 126 1 0\n");
    assert_eq!(compatible("A = end .", "A = end ."), "yes 1\n");
    assert_eq!(compatible("A = ?(string); end .", "A = ![string]; end ."), "yes 2\n");
    assert_eq!(compatible("A = ?(string); end .", "A = ?(string); end ."), "no 20 0 0 0 0\n");
    let mirror = "R = &{sum: ?(string); +{ok: ![float]; R | bad: R} | stop: end} .";
    assert_eq!(compatible(R, mirror), "yes 5\n");
    assert_eq!(compatible(M, mirror), "yes 5\n");
    assert_eq!(compatible(N, mirror), "no 23 1 2 2 0 0 4\n");
    assert_eq!(compatible(R, R), "no 20 0 0 0 0\n");
    // `A = ![A]; end .` and its dual, `?` of A itself: the item's own continuation
    // makes (0, 2) in turn 1, then turn 0, each with (1, 3) behind it.
    let a = "A = ![A]; end .";
    assert_eq!(compatible(a, "B = ?(A); end . A = ![A]; end ."), "yes 6\n");
    // Turned items would make this a yes.
    assert_eq!(compatible(a, "B = ?(B); end ."), "no 20 0 0 2 1 0\n");
}

// The verdict

#[test]
fn readings_of_the_verdict() {
    // D1
    let new = "A = +{a: end | b: end} .";
    assert_eq!(verdict(new, "B = +{b: ?(void); end | a: ?(void); end} ."), "no 20 0 2 1 0 0\n");
    // D1 for `&`, where the left one is the new: position 0 is its `a`.
    let new = "A = &{a: end | b: end} .";
    assert_eq!(verdict(new, "B = &{b: ?(void); end | a: ?(void); end} ."), "no 20 0 1 3 0 0\n");
    // D2: in turn 1 the new node is still printed first.
    let new = "A = ![?(); end]; end .";
    assert_eq!(verdict(new, "B = ![C]; D . C = end . D = end ."), "no 20 0 1 1 1 0\n");
    assert_eq!(verdict(new, "B = ![C]; end . C = end ."), "no 20 0 1 2 1 0\n");
    // D3
    assert_eq!(verdict("A = ?(end, string); end .", "B = ?(end, float); end ."), "no 22 1 0 0 0\n");
    // D4
    let new = "A = ?(string, end); end .";
    assert_eq!(verdict(new, "B = ?(string, ?(void); end); ?(void); end ."), "no 20 0 1 1 0 1\n");
    // D8: the same nodes in two turns are two marks.
    assert_eq!(verdict("A = ![A]; A .", "B = ![B]; B ."), "yes 2\n");
    assert_eq!(verdict("A = ?(A); A .", "B = ?(B); B ."), "yes 1\n");
}

#[test]
fn marks_stand_at_their_places() {
    // P has 4 nodes and Q has 5: (0, 0) and (3, 4) in turn 0, (1, 1) and (2, 2)
    // in turn 1.
    let verdict = may_replace(&table(P), P.as_bytes(), &table(Q), Q.as_bytes());
    let Verdict::Yes { marks, count } = verdict else { panic!("{verdict:?}") };
    let marked: Vec<usize> = (0..marks.len()).filter(|place| marks[*place]).collect();
    assert_eq!((marks.len(), marked, count), (40, vec![0, 19, 26, 32], 4));
}

#[test]
fn steps_are_compared_as_numbers() {
    // Label 10 of the chooser comes after label 4.
    let labels = |broken: [usize; 2]| {
        let branch = |label: usize| {
            format!("l{label}: {}", if broken.contains(&label) { "?(); A" } else { "A" })
        };
        (0..16).map(branch).collect::<Vec<_>>().join(" | ")
    };
    let new = format!("A = &{{{}}} .", labels([4, 10]));
    let old = format!("A = &{{{}}} .", labels([99, 99]));
    assert_eq!(verdict(&new, &old), "no 20 0 1 0 0 4\n");
    let new = format!("A = &{{{}}} .", labels([15, 10]));
    assert_eq!(verdict(&new, &old), "no 20 0 1 0 0 10\n");
}

#[test]
fn reasons_in_their_order() {
    // 21 before 22, 20 before 21.
    assert_eq!(verdict("A = ?(string); end .", "A = ?(float, float); end ."), "no 21 0 0 0 0\n");
    assert_eq!(verdict("A = ?(string); end .", "A = ![float, float]; end ."), "no 20 0 0 0 0\n");
    // Sort against session.
    assert_eq!(verdict("A = ?(void, A); end .", "A = ?(void, void); end ."), "no 22 1 0 0 0\n");
    assert_eq!(verdict("A = ?(void, void); end .", "A = ?(void, A); end ."), "no 22 1 0 0 0\n");
    // 20 for each two kinds.
    let kinds = ["end", "?(); end", "![]; end", "&{a: end}", "+{a: end}"];
    for new in kinds {
        for old in kinds {
            let line = verdict(&format!("A = {new} ."), &format!("A = {old} ."));
            assert_eq!(line.starts_with("yes"), new == old);
            assert_eq!(line == "no 20 0 0 0 0\n", new != old);
        }
    }
}

#[test]
fn labels_go_by_their_bytes() {
    assert_eq!(verdict("A = +{a: end | b: ?(); A} .", "A = +{b: ?(); A | a: end} ."), "yes 3\n");
    assert_eq!(verdict("A = +{A: end} .", "A = +{a: end} ."), "no 23 0 0 0 0\n");
    assert_eq!(verdict("A = +{ab: end} .", "A = +{a: end} ."), "no 23 0 0 0 0\n");
    assert_eq!(verdict("A = &{a: end | c: end} .", "A = &{b: end | a: end} ."), "no 23 1 0 0 0\n");
    assert_eq!(verdict("A = &{a: end} .", "A = &{b: end | a: end} ."), "yes 2\n");
}

#[test]
fn a_pair_met_again_is_no_failure() {
    assert_eq!(verdict("A = ?(); A .", "A = ?(); A ."), "yes 1\n");
    assert_eq!(verdict("A = ?(A, A); A .", "A = ?(A, A); A ."), "yes 1\n");
}

#[test]
fn turns_inside_sent_items() {
    let nested = |sessions: usize, inner: &str| {
        let mut text = inner.to_string();
        for _ in 0..sessions {
            text = format!("![{text}]; end");
        }
        format!("A = {text} .")
    };
    for sessions in 0..8 {
        let (narrow, wide) =
            (nested(sessions, "+{a: end}"), nested(sessions, "+{a: end | b: end}"));
        let turned = sessions % 2 == 1;
        assert_eq!(verdict(&wide, &narrow).starts_with("yes"), !turned);
        assert_eq!(verdict(&narrow, &wide).starts_with("yes"), turned);
    }
    // `?` does not turn.
    assert_eq!(
        verdict("A = ?(+{a: end}); end .", "A = ?(+{a: end | b: end}); end ."),
        "no 23 1 1 1 0 0\n"
    );
    // Three `!` deep.
    assert_eq!(
        verdict(&nested(3, "+{a: end | b: end}"), &nested(3, "+{a: end}")),
        "no 23 1 3 3 1 0 0 0\n"
    );
}

#[test]
fn long_runs() {
    // Rings of 7 and 9: the new lacks `z` at its last node, the old asks for it
    // at its last; both are there after 62 steps.
    let ring = |length: usize, at: usize, usual: &str, there: &str| -> String {
        (0..length)
            .map(|node| {
                let more = if node == at { there } else { usual };
                format!("D{node} = +{{a: D{}{more}}} . ", (node + 1) % length)
            })
            .collect()
    };
    let new = ring(7, 6, "| z: D0", "");
    let old = ring(9, 8, "", "| z: D0");
    let steps = " 0".repeat(62);
    assert_eq!(verdict(&new, &old), format!("no 23 1 6 8 0{steps}\n"));
    let old = ring(9, 9, "", "");
    assert_eq!(verdict(&new, &old), "yes 63\n");
}

#[test]
fn verdicts_agree_with_the_definition() {
    let texts = [
        R,
        N,
        M,
        P,
        Q,
        "A = end .",
        "A = ?(); A .",
        "A = ?(A); A .",
        "A = ![A]; A .",
        "A = ![A]; end .",
        "A = ?(A); end .",
        "A = ![A, B]; B . B = ?(B, A); A .",
        "A = ![B, A]; B . B = ?(A, B); B .",
        "A = ![B]; A . B = +{a: A | b: B | c: end} .",
        "A = ![B]; A . B = +{c: end | a: A} .",
        "A = ![B]; A . B = +{c: ![A]; A | a: A | b: B} .",
        "A = ![B]; A . B = &{b: B | a: A | c: end} .",
        "A = ?(B); A . B = &{a: A | c: end} .",
        "A = ?(B); A . B = &{a: A | c: end | b: ?(); A} .",
        "A = &{a: +{a: A | b: end} | b: A} .",
        "A = &{b: A | a: +{b: end | a: A}} .",
        "A = &{a: +{a: A | b: A} | c: A} .",
        "A = ![![![+{a: A | b: A}]; A]; A]; end .",
        "A = ![![![+{a: A}]; A]; A]; end .",
        "A = ![![![+{b: A | a: A}]; A]; A]; B . B = end .",
        "A = +{a: B | b: C} . B = ?(string, A); C . C = ?(string, A); B .",
        "A = +{b: C | a: B} . B = ?(string, A); C . C = ?(string, B); B .",
        "A = +{b: C | a: B} . B = ?(string, A); C . C = ?(float, A); B .",
    ];
    for new_text in texts {
        for old_text in texts {
            let (new, old) = (table(new_text), table(old_text));
            agrees(&new, new_text, &old, old_text);
            agrees(&new, new_text, &dual(&old).unwrap(), old_text);
        }
    }
}

fn agrees(new: &Table, new_text: &str, old: &Table, old_text: &str) {
    let verdict = may_replace(new, new_text.as_bytes(), old, old_text.as_bytes());
    let new = Named { table: new, names: new_text.as_bytes() };
    let old = Named { table: old, names: old_text.as_bytes() };
    assert_eq!(
        matches!(verdict, Verdict::Yes { .. }),
        some_set_holds_the_starts(new, old),
        "{new_text} {old_text}"
    );
    match verdict {
        Verdict::Yes { marks, count } => {
            assert_eq!(count, marks.iter().filter(|mark| **mark).count());
            assert!(marks_are_the_reached_pairs(new, old, &marks), "{new_text} {old_text}");
        }
        Verdict::No { reason, detail, new: new_node, old: old_node, turn, run } => {
            let first =
                (0..=run.len()).find_map(|length| first_run(new, old, starts(new, old), length));
            let expected = (run, (turn, new_node, old_node), reason, detail);
            assert_eq!(first, Some(expected), "{new_text} {old_text}");
        }
    }
}
