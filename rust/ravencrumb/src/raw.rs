//! The bare calls, over slices of any length and content. include/ravencrumb.h says what the words mean.
//! Each returns 0 or the refusal's number. Nothing compares these declarations with the library's source but the tests.

pub const NODE_WORDS: usize = 3072;
pub const ENTRY_WORDS: usize = 8192;
pub const WORDS: usize = 147;
pub const RECORD_WORDS: usize = 9;
pub const ANSWER_WORDS: usize = 3;
/// Of a call of many steps: the answer, then how many pairs are filled and how many steps were made.
pub const STEPS_ANSWER_WORDS: usize = 5;
pub const STAMP: usize = 2;
pub const MOST_KEYS: usize = 510;
pub const LISTING_BYTES: usize = 16357;

mod c {
    extern "C" {
        pub fn ravencrumb_fresh(n: *mut u32, nl: usize, e: *mut u32, el: usize, w: *mut u32, wl: usize) -> u32;
        pub fn ravencrumb_start(
            n: *const u32, nl: usize, e: *const u32, el: usize, w: *mut u32, wl: usize, a: *mut u32, al: usize,
            who: u32, kind: u32, first: u32, second: u32,
        ) -> u32;
        pub fn ravencrumb_step(
            n: *mut u32, nl: usize, e: *mut u32, el: usize, w: *mut u32, wl: usize, a: *mut u32, al: usize, who: u32,
        ) -> u32;
        pub fn ravencrumb_steps(
            n: *mut u32, nl: usize, e: *mut u32, el: usize, w: *mut u32, wl: usize, p: *mut u32, pl: usize,
            a: *mut u32, al: usize, who: u32, limit: u32,
        ) -> u32;
        pub fn ravencrumb_write(
            stamp: u32, k: *const u32, kl: usize, v: *const u32, vl: usize, o: *mut u8, ol: usize, a: *mut u32,
            al: usize,
        ) -> u32;
        pub fn ravencrumb_read(
            i: *const u8, il: usize, n: *mut u32, nl: usize, e: *mut u32, el: usize, w: *mut u32, wl: usize,
            a: *mut u32, al: usize,
        ) -> u32;
    }
}

pub fn fresh(nodes: &mut [u32], entries: &mut [u32], words: &mut [u32]) -> u32 {
    // Safe: the library's contract has no `requires`; the three slices are valid and apart, as `&mut` says.
    unsafe {
        c::ravencrumb_fresh(
            nodes.as_mut_ptr(), nodes.len(), entries.as_mut_ptr(), entries.len(), words.as_mut_ptr(), words.len(),
        )
    }
}

#[allow(clippy::too_many_arguments)]
pub fn start(
    nodes: &[u32], entries: &[u32], words: &mut [u32], answer: &mut [u32], who: u32, kind: u32, first: u32, second: u32,
) -> u32 {
    // Safe: as in `fresh`; the tables are only read.
    unsafe {
        c::ravencrumb_start(
            nodes.as_ptr(), nodes.len(), entries.as_ptr(), entries.len(), words.as_mut_ptr(), words.len(),
            answer.as_mut_ptr(), answer.len(), who, kind, first, second,
        )
    }
}

pub fn step(nodes: &mut [u32], entries: &mut [u32], words: &mut [u32], answer: &mut [u32], who: u32) -> u32 {
    // Safe: as in `fresh`.
    unsafe {
        c::ravencrumb_step(
            nodes.as_mut_ptr(), nodes.len(), entries.as_mut_ptr(), entries.len(), words.as_mut_ptr(), words.len(),
            answer.as_mut_ptr(), answer.len(), who,
        )
    }
}

pub fn steps(
    nodes: &mut [u32], entries: &mut [u32], words: &mut [u32], pairs: &mut [u32], answer: &mut [u32], who: u32,
    limit: u32,
) -> u32 {
    // Safe: as in `fresh`.
    unsafe {
        c::ravencrumb_steps(
            nodes.as_mut_ptr(), nodes.len(), entries.as_mut_ptr(), entries.len(), words.as_mut_ptr(), words.len(),
            pairs.as_mut_ptr(), pairs.len(), answer.as_mut_ptr(), answer.len(), who, limit,
        )
    }
}

pub fn write(stamp: u32, keys: &[u32], values: &[u32], out: &mut [u8], answer: &mut [u32]) -> u32 {
    // Safe: as in `fresh`; keys and values are only read.
    unsafe {
        c::ravencrumb_write(
            stamp, keys.as_ptr(), keys.len(), values.as_ptr(), values.len(), out.as_mut_ptr(), out.len(),
            answer.as_mut_ptr(), answer.len(),
        )
    }
}

pub fn read(input: &[u8], nodes: &mut [u32], entries: &mut [u32], words: &mut [u32], answer: &mut [u32]) -> u32 {
    // Safe: as in `fresh`; the input is only read.
    unsafe {
        c::ravencrumb_read(
            input.as_ptr(), input.len(), nodes.as_mut_ptr(), nodes.len(), entries.as_mut_ptr(), entries.len(),
            words.as_mut_ptr(), words.len(), answer.as_mut_ptr(), answer.len(),
        )
    }
}
