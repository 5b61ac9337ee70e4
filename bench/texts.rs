//! The texts that are timed.

pub const R: &str = "R = +{sum: ![string]; &{ok: ?(float); R | bad: R} | stop: end} .";

fn definitions(n: usize, definition: impl Fn(usize, usize) -> String) -> String {
    (0..n).map(|node| definition(node, (node + 1) % n)).collect()
}

/// n messages that go round: n nodes. Each is read inside the one before it, so
/// that with 64 of them, and one that is refused, reading calls itself deepest.
pub fn ring(n: usize) -> String {
    format!("A = {}A .", "?(string);".repeat(n))
}

/// n choices that go round, each of so many labels, of which the first leads on
/// and the others lead back to the start: n nodes.
pub fn choices(n: usize, labels: usize) -> String {
    definitions(n, |node, next| {
        let leads = |label: usize| format!("label{label}:N{}", if label == 0 { next } else { 0 });
        let branches: Vec<String> = (0..labels).map(leads).collect();
        format!("N{node}=&{{{}}}.", branches.join("|"))
    })
}

/// n messages that hand sessions over. The new one's first item leads on and its
/// second stays, with the old one's it is the other way round, and the third
/// only turns: so all pairs are reached, in both turns.
pub fn handed_new(n: usize) -> String {
    definitions(n, |node, next| format!("N{node}=![N{next},N{node},N{node}];N{node}."))
}

pub fn handed_old(n: usize) -> String {
    definitions(n, |node, next| format!("N{node}=![N{node},N{next},N{node}];N{node}."))
}

/// The same handed over inside messages that face each other, so that they are
/// compared where compatible is asked: n and one more nodes, and a dual of twice
/// as many.
pub fn handing_over(n: usize) -> String {
    format!("O=![N0];O.{}", handed_new(n))
}

pub fn handed_over(n: usize) -> String {
    format!("O=?(N0);O.{}", handed_old(n))
}

/// A text with everything sent received, and everything received sent, and so with
/// the choices: the dual, where no session is handed over.
pub fn facing(text: &str) -> String {
    let turned = |sign| match sign {
        '!' => '?',
        '?' => '!',
        '[' => '(',
        ']' => ')',
        '(' => '[',
        ')' => ']',
        '&' => '+',
        '+' => '&',
        other => other,
    };
    text.chars().map(turned).collect()
}

/// n choices that go round. The last of the new one's may choose `x`; all of the
/// old one's know it but the last. Rings of lengths that have no divisor in common
/// go round until the two last ones meet.
pub fn long_new(n: usize) -> String {
    definitions(n, |node, next| listing(node, next, node == n - 1))
}

pub fn long_old(n: usize) -> String {
    definitions(n, |node, next| listing(node, next, node != n - 1))
}

fn listing(node: usize, next: usize, known: bool) -> String {
    let known = if known { format!("|x:N{next}") } else { String::new() };
    format!("N{node}=&{{n:N{next}{known}}}.")
}

/// 63 choices, as long as a text may be: words of 16 bytes, and blanks.
pub fn longest() -> String {
    let mut text = definitions(63, |node, next| {
        format!("a_defined_name{node:02}=+{{an_outgoing_{node:04}:a_defined_name{next:02}}}.")
    });
    while text.len() < 4096 {
        text.push(' ');
    }
    text
}

/// Choices inside choices, as deep as brackets go.
pub fn nested(n: usize) -> String {
    format!("A = {}end{} .", "+{a:".repeat(n), "}".repeat(n))
}
