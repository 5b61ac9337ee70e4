//! Compares the proved library with the second implementation on generated
//! inputs: `compare [count] [seed]`. Prints the seed and what was met. A
//! difference is printed with its input and both answers, and ends the run with
//! status 1; so does a run that met too little.

mod met;
mod proved;
mod second;

use generator::{Generator, Input};
use met::Met;
use plain::Verdict;
use proved::{Areas, Question};

/// In every so many inputs the form that lends its own areas is asked too.
const OWN_EVERY: u64 = 8;

fn main() {
    let mut arguments = std::env::args().skip(1).map(|word| word.parse::<u64>().expect("a number"));
    let count = arguments.next().unwrap_or(200_000);
    let seed = arguments.next().unwrap_or(1);
    println!("{count} inputs from seed {seed}");
    let mut generator = Generator::new(seed);
    let mut areas = Areas::enough();
    let mut met = Met::default();
    for at in 0..count {
        let input = generator.next();
        for (column, question) in [Question::Verdict, Question::Compatible].into_iter().enumerate()
        {
            let expected = second::line(question, &input.first, &input.second);
            met.count_line(column, &expected);
            compare(question, &input, &expected, &mut areas);
            if at % OWN_EVERY == 0 {
                compare_own(question, &input, &expected, &mut areas.line);
            }
        }
        met.count_text(&input.first);
        met.count_text(&input.second);
    }
    met.print();
    let rare = met.rare();
    if !rare.is_empty() {
        println!("met too seldom: {}", rare.join("; "));
        std::process::exit(1);
    }
    println!("no difference in {count} inputs, for both questions");
}

/// The line, and behind a verdict what the areas hold.
fn compare(question: Question, input: &Input, expected: &[u8], areas: &mut Areas) {
    let answer = proved::line(question, &input.first, &input.second, areas);
    let line = answer.map(|length| &areas.line[..length]);
    if line != Ok(expected) {
        differ(question, input, &shown(expected), &format!("{:?}", line.map(shown)));
    }
    let Some(kept) = Kept::by_plain(question, input) else {
        return;
    };
    let found = Kept::found(&kept, areas);
    if kept != found {
        differ(question, input, &format!("{kept:?}"), &format!("{found:?}"));
    }
}

fn compare_own(question: Question, input: &Input, expected: &[u8], line: &mut [u8]) {
    let answer = proved::line_own(question, &input.first, &input.second, line);
    let line = answer.map(|length| &line[..length]);
    if line != Ok(expected) {
        let found = format!("in areas of its own {:?}", line.map(shown));
        differ(question, input, &shown(expected), &found);
    }
}

/// What the areas hold behind a verdict. "After yes: reached pairs are marked 1,
/// others 0 ... After no: marks 0; the path holds the steps ... Scratch is 0 after
/// either."
#[derive(PartialEq, Eq, Debug)]
struct Kept {
    marks: Vec<u8>,
    steps: Vec<u16>,
    scratch_is_0: bool,
}

impl Kept {
    /// Nothing where a text is refused.
    fn by_plain(question: Question, input: &Input) -> Option<Kept> {
        let [new, old] = second::tables(question, &input.first, &input.second)?;
        let (marks, steps) = match plain::may_replace(&new, &input.first, &old, &input.second) {
            Verdict::Yes { marks, .. } => (marks.into_iter().map(u8::from).collect(), Vec::new()),
            Verdict::No { run, .. } => (vec![0; 2 * new.nodes().len() * old.nodes().len()], run),
        };
        Some(Kept { marks, steps, scratch_is_0: true })
    }

    /// As much of the areas as is expected.
    fn found(expected: &Kept, areas: &Areas) -> Kept {
        let pairs = expected.marks.len();
        Kept {
            marks: areas.marks[..pairs].to_vec(),
            steps: areas.path[..expected.steps.len()].to_vec(),
            scratch_is_0: areas.scratch[..2 * pairs].iter().all(|number| *number == 0),
        }
    }
}

fn shown(line: &[u8]) -> String {
    line.escape_ascii().to_string()
}

fn differ(question: Question, input: &Input, plain: &str, proved: &str) -> ! {
    println!("differ at {question:?}, {}", input.kind);
    println!("first text:  {}", input.first.escape_ascii());
    println!("second text: {}", input.second.escape_ascii());
    println!("plain:       {plain}");
    println!("proved:      {proved}");
    std::process::exit(1);
}
