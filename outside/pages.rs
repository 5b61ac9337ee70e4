//! The compiled library at the edges of its areas: `pages [count] [seed]`, to be
//! run by itself and under valgrind. Texts and areas end where a page ends that
//! nobody may touch behind; what stands before them is painted, and so are the
//! areas, and compared after every call. The areas have just the lengths that are
//! needed, then some more, then each in turn is one too short: then nothing may be
//! written at all.

#[allow(dead_code)]
mod proved;
mod second;

use std::ffi::c_void;

use generator::{Generator, Input};
use proved::{NoLine, Question};

extern "C" {
    fn mmap(
        at: *mut c_void,
        length: usize,
        allow: i32,
        flags: i32,
        file: i32,
        from: i64,
    ) -> *mut c_void;
    fn mprotect(at: *mut c_void, length: usize, allow: i32) -> i32;
}

const PAGE: usize = 4096;
const READ_AND_WRITE: i32 = 3;
const NOTHING: i32 = 0;
const PRIVATE_AND_ANONYMOUS: i32 = 0x22;

/// What every byte holds before a call.
const PAINT: u8 = 0xa5;

/// Memory that ends at a page which may not be touched.
struct Edge {
    begin: *mut u8,
    length: usize,
}

impl Edge {
    fn new(length: usize) -> Edge {
        let length = length.div_ceil(PAGE) * PAGE;
        unsafe {
            let begin = mmap(
                std::ptr::null_mut(),
                length + PAGE,
                READ_AND_WRITE,
                PRIVATE_AND_ANONYMOUS,
                -1,
                0,
            ) as *mut u8;
            assert!(begin as isize != -1, "no memory");
            assert!(mprotect(begin.add(length) as *mut c_void, PAGE, NOTHING) == 0, "no guard");
            Edge { begin, length }
        }
    }

    fn all(&mut self) -> &mut [u8] {
        unsafe { std::slice::from_raw_parts_mut(self.begin, self.length) }
    }

    /// The last bytes before the edge; the rest is painted anew, and so are they.
    fn last(&mut self, length: usize) -> *mut u8 {
        self.all().fill(PAINT);
        unsafe { self.begin.add(self.length - length) }
    }

    /// A text in the last bytes, of more memory where it is longer than any before.
    fn holding(&mut self, text: &[u8]) -> &'static [u8] {
        if self.length < text.len() {
            *self = Edge::new(text.len());
        }
        let at = self.last(text.len());
        unsafe {
            std::ptr::copy_nonoverlapping(text.as_ptr(), at, text.len());
            std::slice::from_raw_parts(at, text.len())
        }
    }

    /// Whether all but the last bytes still has its paint.
    fn painted_before(&mut self, length: usize) -> bool {
        let kept = self.length - length;
        self.all()[..kept].iter().all(|byte| *byte == PAINT)
    }
}

/// How many elements of marks, path, scratch and line are lent.
type Sizes = [usize; 4];

/// How many bytes an element of each has.
const WIDTHS: Sizes = [1, 2, 2, 1];

/// How many more than needed are lent, where more are.
const MORE: usize = 5;

/// The line's place among the areas.
const LINE: usize = 3;

struct Edges {
    texts: [Edge; 2],
    areas: [Edge; 4],
}

impl Edges {
    fn new() -> Edges {
        let most = sizes(64, 128);
        let area = |at: usize| Edge::new((most[at] + MORE) * WIDTHS[at] + 1);
        Edges {
            texts: [Edge::new(PAGE), Edge::new(PAGE)],
            areas: [area(0), area(1), area(2), area(3)],
        }
    }

    /// Asks with areas of these sizes.
    fn ask(&mut self, question: Question, input: &Input, lent: Sizes) -> Result<usize, NoLine> {
        let new = self.texts[0].holding(&input.first);
        let old = self.texts[1].holding(&input.second);
        let at = [0, 1, 2, 3].map(|area| self.areas[area].last(lent[area] * WIDTHS[area]));
        unsafe {
            let areas = proved::Lent {
                marks: std::slice::from_raw_parts_mut(at[0], lent[0]),
                path: std::slice::from_raw_parts_mut(at[1] as *mut u16, lent[1]),
                scratch: std::slice::from_raw_parts_mut(at[2] as *mut u16, lent[2]),
                line: std::slice::from_raw_parts_mut(at[3], lent[3]),
            };
            proved::line_in(question, new, old, areas)
        }
    }

    /// The same with the line's area alone.
    fn ask_own(&mut self, question: Question, input: &Input, line: usize) -> Result<usize, NoLine> {
        let new = self.texts[0].holding(&input.first);
        let old = self.texts[1].holding(&input.second);
        let at = self.areas[LINE].last(line);
        let line = unsafe { std::slice::from_raw_parts_mut(at, line) };
        proved::line_own(question, new, old, line)
    }

    /// Whether the texts, and what stands before them, are as they were.
    fn texts_kept(&mut self, input: &Input) -> bool {
        let texts = [&input.first, &input.second];
        texts
            .iter()
            .zip(&mut self.texts)
            .all(|(text, edge)| edge.painted_before(text.len()) && edge.all().ends_with(text))
    }

    /// Whether what stands before an area is as it was, and so is the area itself
    /// from an element on.
    fn area_kept(&mut self, area: usize, from: usize, lent: usize) -> bool {
        let edge = &mut self.areas[area];
        let begin = edge.length - (lent - from) * WIDTHS[area];
        edge.painted_before(lent * WIDTHS[area])
            && edge.all()[begin..].iter().all(|byte| *byte == PAINT)
    }

    fn kept(&mut self, input: &Input, from: Sizes, lent: Sizes) -> bool {
        self.texts_kept(input) && (0..4).all(|area| self.area_kept(area, from[area], lent[area]))
    }

    /// The line's area begins with this line.
    fn holds(&mut self, line: &[u8], lent: usize) -> bool {
        let edge = &mut self.areas[LINE];
        let begin = edge.length - lent;
        edge.all()[begin..].starts_with(line)
    }
}

/// "marks, 2 × n × m bytes; path, 2 × n × m numbers of 16 bits; scratch, 4 × n × m
/// numbers of 16 bits", and the line.
fn sizes(n: usize, m: usize) -> Sizes {
    [2 * n * m, 2 * n * m, 4 * n * m, 6 * n * m + 18]
}

fn main() {
    let mut arguments = std::env::args().skip(1).map(|word| word.parse::<u64>().expect("a number"));
    let count = arguments.next().unwrap_or(20_000);
    let seed = arguments.next().unwrap_or(1);
    let mut generator = Generator::new(seed);
    let mut edges = Edges::new();
    let mut calls = 0;
    for _ in 0..count {
        let input = generator.next();
        for question in [Question::Verdict, Question::Compatible] {
            calls += try_sizes(&mut edges, question, &input);
        }
    }
    println!("{calls} calls at the edges of pages, {count} inputs from seed {seed}: nothing written beside");
}

/// The node counts that the sizes are for: a refused text has none.
fn needed(question: Question, input: &Input) -> Sizes {
    match second::tables(question, &input.first, &input.second) {
        Some([new, old]) => sizes(new.nodes().len(), old.nodes().len()),
        None => sizes(0, 0),
    }
}

/// How much of each area is written for a line. "path untouched" after yes; after no
/// "the path holds the steps and beyond them is untouched"; where a text is refused
/// all three are.
fn written(line: &[u8], need: Sizes) -> Sizes {
    let fields = line.split(|byte| *byte == b' ').count();
    match line[0] {
        b'y' => [need[0], 0, need[2], line.len()],
        b'n' => [need[0], fields - 6, need[2], line.len()],
        _ => [0, 0, 0, line.len()],
    }
}

/// Asks in areas of every kind. How many calls that were.
fn try_sizes(edges: &mut Edges, question: Question, input: &Input) -> usize {
    let need = needed(question, input);
    let line = second::line(question, &input.first, &input.second);
    let mut calls = 0;
    for lent in [need, need.map(|length| length + MORE)] {
        assert_eq!(edges.ask(question, input, lent), Ok(line.len()), "{}", input.kind);
        assert!(edges.holds(&line, lent[LINE]), "{}: another line", input.kind);
        assert!(edges.kept(input, written(&line, need), lent), "{}: written beside", input.kind);
        calls += 1;
    }
    for area in (0..4).filter(|area| need[*area] > 0) {
        let mut lent = need;
        lent[area] -= 1;
        assert_eq!(
            edges.ask(question, input, lent),
            Err(NoLine::Short(area + 1)),
            "{}",
            input.kind
        );
        assert!(edges.kept(input, [0; 4], lent), "{}: written after 11", input.kind);
        calls += 1;
    }
    calls + try_own(edges, question, input, need[LINE], &line)
}

/// The same where the line's area alone is lent.
fn try_own(
    edges: &mut Edges,
    question: Question,
    input: &Input,
    need: usize,
    line: &[u8],
) -> usize {
    assert_eq!(edges.ask_own(question, input, need), Ok(line.len()), "{}", input.kind);
    assert!(edges.holds(line, need), "{}: another line in areas of its own", input.kind);
    let kept = edges.texts_kept(input) && edges.area_kept(LINE, line.len(), need);
    assert!(kept, "{}: written beside, in areas of its own", input.kind);
    assert_eq!(
        edges.ask_own(question, input, need - 1),
        Err(NoLine::Short(LINE + 1)),
        "{}",
        input.kind
    );
    let kept = edges.texts_kept(input) && edges.area_kept(LINE, 0, need - 1);
    assert!(kept, "{}: written after 11, in areas of its own", input.kind);
    2
}
