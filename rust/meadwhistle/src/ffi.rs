//! The C interface, `include/meadwhistle.h`, name by name, each function behind a safe one. All `unsafe` of the crate is here.
//!
//! In every call a slice is lent as the pointer and the length that it has, for the call alone. The pointer of an empty slice isn't
//! null, and a slice that is lent to be written overlaps no other: its reference is the only one.
#![allow(unsafe_code)]

#[repr(C)]
pub struct Ran {
    pub number: u8,
    pub written: usize,
}

/// The fields are the engine's.
#[repr(C)]
#[derive(Clone)]
pub struct Desk {
    is_open: u8,
    root: usize,
    leaves: u64,
    repeats: u64,
    active: u64,
    going: u64,
    nodes: [u16; 64],
    gain: [u64; 64],
}

#[repr(C)]
pub struct Reply {
    pub number: u8,
    pub status: u8,
    pub notices: u16,
    pub lines: u64,
}

#[repr(C)]
pub struct Part {
    pub file: u8,
    pub place: usize,
}

// SAFETY: these are the header's declarations.
unsafe extern "C" {
    fn meadwhistle_run(
        rule: *const u8,
        rule_len: usize,
        events: *const u8,
        events_len: usize,
        answers: *mut u8,
        answers_len: usize,
        place: usize,
    ) -> Ran;

    fn meadwhistle_desk_empty() -> Desk;

    fn meadwhistle_desk_open(desk: *mut Desk, rule: *const u8, rule_len: usize) -> u8;

    fn meadwhistle_desk_step(desk: *mut Desk, event: u8) -> Reply;

    fn meadwhistle_judge(
        expressions: *const u8,
        expressions_len: usize,
        pairs: *const u8,
        pairs_len: usize,
    ) -> u8;

    fn meadwhistle_shown(
        expressions: *const u8,
        expressions_len: usize,
        pairs: *const u8,
        pairs_len: usize,
    ) -> Part;

    fn meadwhistle_print(
        input: *const u8,
        input_len: usize,
        output: *mut u8,
        output_len: usize,
    ) -> usize;
}

pub fn run(rule: &[u8], events: &[u8], answers: &mut [u8], place: usize) -> Ran {
    // SAFETY: three slices, lent as said above; any place is allowed.
    unsafe {
        meadwhistle_run(
            rule.as_ptr(),
            rule.len(),
            events.as_ptr(),
            events.len(),
            answers.as_mut_ptr(),
            answers.len(),
            place,
        )
    }
}

pub fn desk_empty() -> Desk {
    // SAFETY: nothing is lent.
    unsafe { meadwhistle_desk_empty() }
}

pub fn desk_open(desk: &mut Desk, rule: &[u8]) -> u8 {
    // SAFETY: a desk comes from `desk_empty` alone, its fields being private; the slice is lent as said above.
    unsafe { meadwhistle_desk_open(desk, rule.as_ptr(), rule.len()) }
}

pub fn desk_step(desk: &mut Desk, event: u8) -> Reply {
    // SAFETY: a desk comes from `desk_empty` alone, its fields being private.
    unsafe { meadwhistle_desk_step(desk, event) }
}

pub fn judge(expressions: &[u8], pairs: &[u8]) -> u8 {
    // SAFETY: two slices, lent as said above.
    unsafe {
        meadwhistle_judge(
            expressions.as_ptr(),
            expressions.len(),
            pairs.as_ptr(),
            pairs.len(),
        )
    }
}

pub fn shown(expressions: &[u8], pairs: &[u8]) -> Part {
    // SAFETY: two slices, lent as said above.
    unsafe {
        meadwhistle_shown(
            expressions.as_ptr(),
            expressions.len(),
            pairs.as_ptr(),
            pairs.len(),
        )
    }
}

pub fn print(input: &[u8], output: &mut [u8]) -> usize {
    // SAFETY: two slices, lent as said above.
    unsafe {
        meadwhistle_print(
            input.as_ptr(),
            input.len(),
            output.as_mut_ptr(),
            output.len(),
        )
    }
}
