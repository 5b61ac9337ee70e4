//! The parts of the proved library that are timed by themselves (crate `timed`).

#[link(name = "timed", kind = "static")]
extern "C" {
    fn timed_read(text: *const u8, length: usize) -> usize;
    fn timed_dual(text: *const u8, length: usize, times: usize) -> usize;
    fn timed_verdict(
        new_text: *const u8,
        new_length: usize,
        old_text: *const u8,
        old_length: usize,
        marks: *mut u8,
        marks_length: usize,
        path: *mut u16,
        path_length: usize,
        scratch: *mut u16,
        scratch_length: usize,
        times: usize,
    ) -> usize;
}

pub fn read(text: &[u8]) -> usize {
    unsafe { timed_read(text.as_ptr(), text.len()) }
}

pub fn dual(text: &[u8], times: usize) -> usize {
    unsafe { timed_dual(text.as_ptr(), text.len(), times) }
}

pub fn verdict(new: &[u8], old: &[u8], areas: &mut crate::proved::Areas, times: usize) -> usize {
    unsafe {
        timed_verdict(
            new.as_ptr(),
            new.len(),
            old.as_ptr(),
            old.len(),
            areas.marks.as_mut_ptr(),
            areas.marks.len(),
            areas.path.as_mut_ptr(),
            areas.path.len(),
            areas.scratch.as_mut_ptr(),
            areas.scratch.len(),
            times,
        )
    }
}
