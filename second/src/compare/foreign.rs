//! The engine behind the C header `meadwhistle.h`: its functions, each behind a safe one.

use crate::compare::engine::{Engine, Reply};
use crate::compare::fields::Fields;

/// The header, name by name. Its desk is [`Fields`].
mod header {
    use crate::compare::fields::Fields;

    #[repr(C)]
    pub struct Ran {
        pub number: u8,
        pub written: usize,
    }

    #[repr(C)]
    pub struct Reply {
        pub number: u8,
        pub status: u8,
        pub notices: u16,
        pub lines: u64,
    }

    #[repr(C)]
    pub struct Part {
        pub file: u8,
        pub place: usize,
    }

    extern "C" {
        pub fn meadwhistle_run(
            rule: *const u8,
            rule_len: usize,
            events: *const u8,
            events_len: usize,
            answers: *mut u8,
            answers_len: usize,
            place: usize,
        ) -> Ran;

        pub fn meadwhistle_desk_empty() -> Fields;

        pub fn meadwhistle_desk_open(desk: *mut Fields, rule: *const u8, rule_len: usize) -> u8;

        pub fn meadwhistle_desk_step(desk: *mut Fields, event: u8) -> Reply;

        pub fn meadwhistle_judge(
            expressions: *const u8,
            expressions_len: usize,
            pairs: *const u8,
            pairs_len: usize,
        ) -> u8;

        pub fn meadwhistle_shown(
            expressions: *const u8,
            expressions_len: usize,
            pairs: *const u8,
            pairs_len: usize,
        ) -> Part;

        pub fn meadwhistle_print(
            input: *const u8,
            input_len: usize,
            output: *mut u8,
            output_len: usize,
        ) -> usize;
    }
}

/// The engine that is linked in.
pub struct Meadwhistle;

// In every call a slice is lent as the pointer and the length it has, for the call alone. The
// pointer of an empty slice isn't null. A desk may hold any values.
impl Engine for Meadwhistle {
    /// On the heap, where a tool that watches memory sees what is written past its end.
    type Desk = Box<Fields>;

    fn run(&self, rule: &[u8], events: &[u8], answers: &mut [u8], place: usize) -> (u8, usize) {
        // SAFETY: the three slices are as described; the one that is written overlaps no other.
        let ran = unsafe {
            header::meadwhistle_run(
                rule.as_ptr(),
                rule.len(),
                events.as_ptr(),
                events.len(),
                answers.as_mut_ptr(),
                answers.len(),
                place,
            )
        };
        (ran.number, ran.written)
    }

    fn empty_desk(&self) -> Box<Fields> {
        // SAFETY: nothing is lent.
        Box::new(unsafe { header::meadwhistle_desk_empty() })
    }

    fn desk_holding(&self, fields: &Fields) -> Box<Fields> {
        Box::new(*fields)
    }

    fn open(&self, desk: &mut Box<Fields>, rule: &[u8]) -> u8 {
        // SAFETY: the desk and the slice are as described and don't overlap.
        unsafe { header::meadwhistle_desk_open(&raw mut **desk, rule.as_ptr(), rule.len()) }
    }

    fn step(&self, desk: &mut Box<Fields>, event: u8) -> Reply {
        // SAFETY: the desk is as described.
        let reply = unsafe { header::meadwhistle_desk_step(&raw mut **desk, event) };
        Reply {
            number: reply.number,
            notices: reply.notices,
            status: reply.status,
            lines: reply.lines,
        }
    }

    fn fields(&self, desk: &Box<Fields>) -> Fields {
        **desk
    }

    fn judge(&self, expressions: &[u8], pairs: &[u8]) -> u8 {
        // SAFETY: both slices are as described, and nothing is written.
        unsafe {
            header::meadwhistle_judge(
                expressions.as_ptr(),
                expressions.len(),
                pairs.as_ptr(),
                pairs.len(),
            )
        }
    }

    fn shown(&self, expressions: &[u8], pairs: &[u8]) -> (u8, usize) {
        // SAFETY: both slices are as described, and nothing is written.
        let part = unsafe {
            header::meadwhistle_shown(
                expressions.as_ptr(),
                expressions.len(),
                pairs.as_ptr(),
                pairs.len(),
            )
        };
        (part.file, part.place)
    }

    fn print(&self, input: &[u8], output: &mut [u8]) -> usize {
        // SAFETY: both slices are as described and don't overlap.
        unsafe {
            header::meadwhistle_print(
                input.as_ptr(),
                input.len(),
                output.as_mut_ptr(),
                output.len(),
            )
        }
    }
}
