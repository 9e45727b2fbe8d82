//! The library's functions, behind safe ones.

use std::ops::Range;

use second::call::Case;
use second::end::Refusal;

extern "C" {
    fn pegplanet_check(file: *const u8, length: usize) -> u64;

    fn pegplanet_run(
        file: *const u8,
        file_len: usize,
        budget: u32,
        wanted: u32,
        out: *mut u8,
        out_len: usize,
    ) -> u64;

    fn pegplanet_call(
        file: *const u8,
        file_len: usize,
        cells: u32,
        steps: u32,
        work: u32,
        budget: u32,
        wanted: u32,
        scratch: *mut u32,
        scratch_len: usize,
        out: *mut u8,
        out_len: usize,
        result: *mut u64,
        result_len: usize,
    );
}

/// Checks a file: the library's one number.
pub fn check(file: &[u8]) -> u64 {
    // SAFETY: the function reads the bytes of the file and no others.
    unsafe { pegplanet_check(file.as_ptr(), file.len()) }
}

/// Checks a part of a buffer. The library could write to all of the buffer, so
/// that the caller sees whether it did.
pub fn check_part(buffer: &mut [u8], part: Range<usize>) -> u64 {
    assert!(part.start <= part.end && part.end <= buffer.len());
    // SAFETY: the part lies in the buffer, which nothing else can reach.
    unsafe { pegplanet_check(buffer.as_mut_ptr().add(part.start), part.len()) }
}

/// What a number says: 0 that the file is good; else the refusal is in the
/// upper half, the place in the lower.
pub fn said(number: u64) -> Result<(), Refusal> {
    match number {
        0 => Ok(()),
        _ => Err(Refusal {
            number: (number >> 32) as u32,
            place: (number & 0xFFFF_FFFF) as usize,
        }),
    }
}

/// A part of a buffer, lent to the library. The library could write to all of
/// the buffer, so that the caller sees whether it did.
pub struct Part<'a, T> {
    buffer: &'a mut [T],
    part: Range<usize>,
}

impl<'a, T> Part<'a, T> {
    pub fn new(buffer: &'a mut [T], part: Range<usize>) -> Part<'a, T> {
        assert!(part.start <= part.end && part.end <= buffer.len());
        Part { buffer, part }
    }

    pub fn whole(buffer: &'a mut [T]) -> Part<'a, T> {
        let part = 0..buffer.len();
        Part { buffer, part }
    }

    fn start(&mut self) -> *mut T {
        // SAFETY: the part starts in the buffer, or at its end.
        unsafe { self.buffer.as_mut_ptr().add(self.part.start) }
    }

    fn len(&self) -> usize {
        self.part.len()
    }
}

/// The whole call. The lengths of scratch and output are those of the buffers.
pub fn call(case: &Case, scratch: &mut [u32], out: &mut [u8], result: &mut [u64]) {
    let (scratch, out) = (Part::whole(scratch), Part::whole(out));
    call_parts(case, scratch, out, Part::whole(result))
}

/// The whole call, with parts of buffers.
pub fn call_parts(case: &Case, mut scratch: Part<u32>, mut out: Part<u8>, mut result: Part<u64>) {
    // SAFETY: the function reads the file, and writes to the three parts and to
    // nothing else. They lie in buffers which nothing else can reach.
    unsafe {
        pegplanet_call(
            case.file.as_ptr(),
            case.file.len(),
            case.limits.cells,
            case.limits.steps,
            case.limits.work,
            case.budget,
            case.wanted,
            scratch.start(),
            scratch.len(),
            out.start(),
            out.len(),
            result.start(),
            result.len(),
        )
    }
}

/// The embedded form: the library's one number.
pub fn run(file: &[u8], budget: u32, wanted: u32, out: &mut [u8]) -> u64 {
    run_part(file, budget, wanted, Part::whole(out))
}

/// The embedded form, with a part of a buffer.
pub fn run_part(file: &[u8], budget: u32, wanted: u32, mut out: Part<u8>) -> u64 {
    // SAFETY: the function reads the file and writes to the part of the buffer,
    // which nothing else can reach.
    unsafe {
        pegplanet_run(
            file.as_ptr(),
            file.len(),
            budget,
            wanted,
            out.start(),
            out.len(),
        )
    }
}
