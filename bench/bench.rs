//! Times the proved library beside the second implementation, in one run, and
//! measures its stack. What it prints is Markdown, for docs/PERFORMANCE.md.

#[path = "../outside/proved.rs"]
#[allow(dead_code)]
mod proved;
#[path = "../outside/second.rs"]
mod second;
#[path = "../outside/stack.rs"]
mod stack;
mod texts;
mod timed;

use std::hint::black_box;
use std::time::{Duration, Instant};

use proved::{Areas, Question};
use stack::Stack;

/// Each sample takes about so long, and there are so many of each.
const SAMPLE: Duration = Duration::from_millis(3);
const SAMPLES: usize = 41;

/// Two texts for each question.
struct Case {
    name: String,
    verdict: [String; 2],
    compatible: [String; 2],
}

impl Case {
    fn texts(&self, question: Question) -> [&[u8]; 2] {
        let [new, old] = match question {
            Question::Verdict => &self.verdict,
            Question::Compatible => &self.compatible,
        };
        [new.as_bytes(), old.as_bytes()]
    }
}

/// Compatible is asked of the text that faces the old one.
fn case(name: &str, new: String, old: String) -> Case {
    let facing = texts::facing(&old);
    Case { name: name.into(), compatible: [new.clone(), facing], verdict: [new, old] }
}

fn cases(examples: &str) -> Vec<Case> {
    let example =
        |name: &str| std::fs::read_to_string(format!("{examples}/{name}")).expect("an example");
    let card = Case {
        name: "medium: the card's example".into(),
        verdict: ["card/candidate-a.txt", "card/reference.txt"].map(example),
        compatible: ["card/reference.txt", "card/firmware.txt"].map(example),
    };
    let handed = Case {
        name: "largest yes".into(),
        verdict: [texts::handed_new(64), texts::handed_old(64)],
        compatible: [texts::handing_over(63), texts::handed_over(63)],
    };
    vec![
        case("small: R", texts::R.into(), texts::R.into()),
        card,
        handed,
        case("14 labels", texts::choices(20, 14), texts::choices(19, 14)),
        case("longest run of two rings", texts::long_new(64), texts::long_old(63)),
        case("4,096 bytes", texts::longest(), texts::longest()),
    ]
}

/// The median of some times, and the spread of their middle half, in nanoseconds.
struct Time {
    median: f64,
    low: f64,
    high: f64,
}

fn summary(mut samples: Vec<f64>) -> Time {
    samples.sort_by(f64::total_cmp);
    let at = |part: usize| samples[(samples.len() - 1) * part / 4];
    Time { median: at(2), low: at(1), high: at(3) }
}

/// How often a call is made in a sample.
fn repeats(call: &mut dyn FnMut(usize)) -> usize {
    let mut times = 1;
    loop {
        let begin = Instant::now();
        call(times);
        let took = begin.elapsed();
        if took * 4 > SAMPLE {
            return ((times as f64) * SAMPLE.as_secs_f64() / took.as_secs_f64()).ceil() as usize;
        }
        times *= 4;
    }
}

fn sample(call: &mut dyn FnMut(usize), times: usize) -> f64 {
    let begin = Instant::now();
    call(times);
    begin.elapsed().as_nanos() as f64 / times as f64
}

/// The two beside each other, one sample of each in turn, so that what else the
/// machine does falls on both.
fn beside(proved: &mut dyn FnMut(usize), plain: &mut dyn FnMut(usize)) -> [Time; 2] {
    let times = [repeats(proved), repeats(plain)];
    let mut samples = [Vec::new(), Vec::new()];
    for _ in 0..SAMPLES {
        samples[0].push(sample(proved, times[0]));
        samples[1].push(sample(plain, times[1]));
    }
    samples.map(summary)
}

fn shown(time: &Time) -> String {
    let number = |value: f64| {
        if value < 10_000.0 {
            format!("{:.2}", value / 1000.0)
        } else {
            format!("{:.0}", value / 1000.0)
        }
    };
    format!("{} ({} to {})", number(time.median), number(time.low), number(time.high))
}

fn row(name: &str, [proved, plain]: &[Time; 2]) {
    println!(
        "| {name} | {} | {} | {:.1} |",
        shown(proved),
        shown(plain),
        proved.median / plain.median
    );
}

fn head(what: &str) {
    println!("\n| {what} | Proved, µs | Plain, µs | Ratio |\n|---|---|---|---|");
}

/// Takes an answer, so that none can be left out.
fn keep<T>(answer: T) {
    black_box(answer);
}

fn reading(text: &[u8]) -> [Time; 2] {
    beside(&mut |times| (0..times).for_each(|_| keep(timed::read(black_box(text)))), &mut |times| {
        (0..times).for_each(|_| keep(plain::read(black_box(text))))
    })
}

fn dual(text: &[u8]) -> [Time; 2] {
    let table = plain::read(text).expect("a good text");
    beside(&mut |times| keep(timed::dual(text, times)), &mut |times| {
        (0..times).for_each(|_| keep(plain::dual(black_box(&table))))
    })
}

fn verdict(new: &[u8], old: &[u8], areas: &mut Areas) -> [Time; 2] {
    let tables = [new, old].map(|text| plain::read(text).expect("a good text"));
    beside(&mut |times| keep(timed::verdict(new, old, areas, times)), &mut |times| {
        (0..times)
            .for_each(|_| keep(plain::may_replace(black_box(&tables[0]), new, &tables[1], old)))
    })
}

fn line(question: Question, new: &[u8], old: &[u8], areas: &mut Areas) -> [Time; 2] {
    beside(
        &mut |times| {
            (0..times).for_each(|_| keep(proved::line(question, black_box(new), old, areas)))
        },
        &mut |times| (0..times).for_each(|_| keep(second::line(question, black_box(new), old))),
    )
}

fn times(cases: &[Case], areas: &mut Areas) {
    head("Reading the verdict's new text");
    for case in cases {
        row(&case.name, &reading(case.texts(Question::Verdict)[0]));
    }
    head("Dual of compatible's second table");
    for case in cases {
        row(&case.name, &dual(case.texts(Question::Compatible)[1]));
    }
    head("Verdict on the two tables");
    for case in cases {
        let [new, old] = case.texts(Question::Verdict);
        row(&case.name, &verdict(new, old, areas));
    }
    for (question, title) in [
        (Question::Verdict, "Two texts to the line, verdict"),
        (Question::Compatible, "Two texts to the line, compatible"),
    ] {
        head(title);
        for case in cases {
            let [new, old] = case.texts(question);
            row(&case.name, &line(question, new, old, areas));
        }
    }
}

/// A row for each n: the proved one's times, and the ratios.
fn growth(areas: &mut Areas) {
    println!("\n| n | Reading a ring, µs | Ratio | Verdict on rings of n and n - 1, µs | Ratio | Choices of 2 labels, n and n - 1, µs | Ratio |");
    println!("|---|---|---|---|---|---|---|");
    for n in [4, 8, 16, 32, 64] {
        let read = reading(texts::ring(n).as_bytes());
        let rings = verdict(texts::ring(n).as_bytes(), texts::ring(n - 1).as_bytes(), areas);
        let choices =
            verdict(texts::choices(n, 2).as_bytes(), texts::choices(n - 1, 2).as_bytes(), areas);
        let cells: Vec<String> = [read, rings, choices]
            .iter()
            .map(|[proved, plain]| {
                format!("{:.2} | {:.1}", proved.median / 1000.0, proved.median / plain.median)
            })
            .collect();
        println!("| {n} | {} |", cells.join(" | "));
    }
}

fn stacks(cases: &[Case], areas: &mut Areas) {
    println!("\n| Stack, bytes, without the areas | Reading | Line, verdict | Line, compatible |");
    println!("|---|---|---|---|");
    let deepest = [
        case("64 messages", texts::ring(64), texts::ring(64)),
        case("65 messages, the last refused", texts::ring(64), texts::ring(65)),
        case("16 choices inside each other", texts::nested(16), texts::nested(16)),
    ];
    let mut stack = Stack::new();
    for case in cases.iter().chain(&deepest) {
        let [_, old] = case.texts(Question::Verdict);
        let read = stack.of(&mut || keep(timed::read(old)));
        let lines = [Question::Verdict, Question::Compatible].map(|question| {
            let [new, old] = case.texts(question);
            stack.of(&mut || keep(proved::line(question, new, old, areas)))
        });
        println!("| {} | {read} | {} | {} |", case.name, lines[0], lines[1]);
    }
}

/// A line's first fields.
fn begin(line: &[u8]) -> String {
    let line = String::from_utf8_lossy(line);
    let fields: Vec<&str> = line.split_whitespace().collect();
    if fields.len() > 10 {
        return format!("{} ... ({} steps)", fields[..8].join(" "), fields.len() - 6);
    }
    fields.join(" ")
}

/// What is timed: the texts' bytes and nodes, and the lines, which the two have in
/// common.
fn answers(cases: &[Case], areas: &mut Areas) {
    println!("\n| Case | Question | Bytes | Nodes | Line |\n|---|---|---|---|---|");
    for case in cases {
        for question in [Question::Verdict, Question::Compatible] {
            let [new, old] = case.texts(question);
            let expected = second::line(question, new, old);
            let length = proved::line(question, new, old, areas);
            assert_eq!(
                length.map(|length| &areas.line[..length]),
                Ok(&expected[..]),
                "{}",
                case.name
            );
            let tables = second::tables(question, new, old).expect("good texts");
            let [first, second] = tables.map(|table| table.nodes().len());
            println!(
                "| {} | {question:?} | {}, {} | {} × {} | {} |",
                case.name,
                new.len(),
                old.len(),
                first,
                second,
                begin(&expected)
            );
        }
    }
}

fn main() {
    let examples = std::env::args().nth(1).expect("the folder of the examples");
    let cases = cases(&examples);
    let mut areas = Areas::enough();
    answers(&cases, &mut areas);
    times(&cases, &mut areas);
    growth(&mut areas);
    stacks(&cases, &mut areas);
}
