//! The proved library through its C interface, `include/dzaghvori.h`.

#[link(name = "harness", kind = "static")]
extern "C" {
    fn dzaghvori_verdict(
        new_text: *const u8,
        new_length: usize,
        old_text: *const u8,
        old_length: usize,
        marks: *mut u8,
        marks_length: usize,
        path: *mut u16,
        path_length: usize,
        scratch: *mut u16,
        scratch_length: usize,
        line: *mut u8,
        line_length: usize,
        area: *mut usize,
    ) -> usize;

    fn dzaghvori_compatible(
        new_text: *const u8,
        new_length: usize,
        other_text: *const u8,
        other_length: usize,
        marks: *mut u8,
        marks_length: usize,
        path: *mut u16,
        path_length: usize,
        scratch: *mut u16,
        scratch_length: usize,
        line: *mut u8,
        line_length: usize,
        area: *mut usize,
    ) -> usize;

    fn dzaghvori_verdict_own(
        new_text: *const u8,
        new_length: usize,
        old_text: *const u8,
        old_length: usize,
        line: *mut u8,
        line_length: usize,
        area: *mut usize,
    ) -> usize;

    fn dzaghvori_compatible_own(
        new_text: *const u8,
        new_length: usize,
        other_text: *const u8,
        other_length: usize,
        line: *mut u8,
        line_length: usize,
        area: *mut usize,
    ) -> usize;
}

#[derive(Clone, Copy, PartialEq, Eq, Debug)]
pub enum Question {
    Verdict,
    Compatible,
}

/// The areas that are lent.
pub struct Lent<'a> {
    pub marks: &'a mut [u8],
    pub path: &'a mut [u16],
    pub scratch: &'a mut [u16],
    pub line: &'a mut [u8],
}

/// Areas to lend again and again.
pub struct Areas {
    pub marks: Vec<u8>,
    pub path: Vec<u16>,
    pub scratch: Vec<u16>,
    pub line: Vec<u8>,
}

impl Areas {
    /// For every two texts, of 64 nodes each and a dual of 128; full of anything.
    pub fn enough() -> Areas {
        let (n, m) = (64, 128);
        Areas {
            marks: vec![0xa5; 2 * n * m],
            path: vec![0xa5a5; 2 * n * m],
            scratch: vec![0xa5a5; 4 * n * m],
            line: vec![0xa5; 6 * n * m + 18],
        }
    }

    fn lent(&mut self) -> Lent<'_> {
        let Areas { marks, path, scratch, line } = self;
        Lent { marks, path, scratch, line }
    }
}

/// What is told instead of a line's length: the position of the area that is too
/// short; or two numbers that are never to be told.
#[derive(Clone, Copy, PartialEq, Eq, Debug)]
pub enum NoLine {
    Short(usize),
    Wrong { length: usize, area: usize },
}

/// The line's length.
pub fn line(
    question: Question,
    new: &[u8],
    old: &[u8],
    areas: &mut Areas,
) -> Result<usize, NoLine> {
    line_in(question, new, old, areas.lent())
}

pub fn line_in(question: Question, new: &[u8], old: &[u8], lent: Lent) -> Result<usize, NoLine> {
    let mut area = usize::MAX;
    let ask = match question {
        Question::Verdict => dzaghvori_verdict,
        Question::Compatible => dzaghvori_compatible,
    };
    let length = unsafe {
        ask(
            new.as_ptr(),
            new.len(),
            old.as_ptr(),
            old.len(),
            lent.marks.as_mut_ptr(),
            lent.marks.len(),
            lent.path.as_mut_ptr(),
            lent.path.len(),
            lent.scratch.as_mut_ptr(),
            lent.scratch.len(),
            lent.line.as_mut_ptr(),
            lent.line.len(),
            &mut area,
        )
    };
    answer(length, area)
}

/// The same with the line's area alone.
pub fn line_own(
    question: Question,
    new: &[u8],
    old: &[u8],
    line: &mut [u8],
) -> Result<usize, NoLine> {
    let mut area = usize::MAX;
    let ask = match question {
        Question::Verdict => dzaghvori_verdict_own,
        Question::Compatible => dzaghvori_compatible_own,
    };
    let length = unsafe {
        ask(
            new.as_ptr(),
            new.len(),
            old.as_ptr(),
            old.len(),
            line.as_mut_ptr(),
            line.len(),
            &mut area,
        )
    };
    answer(length, area)
}

fn answer(length: usize, area: usize) -> Result<usize, NoLine> {
    match (length, area) {
        (1.., 0) => Ok(length),
        (0, 1..=4) => Err(NoLine::Short(area)),
        _ => Err(NoLine::Wrong { length, area }),
    }
}
