//! The swap rule as a table automaton in C.

use second::feed::ANSWER_LENGTH;

extern "C" {
    fn table_run(events: *const u8, count: usize, answers: *mut u8);
}

pub fn run(events: &[u8], answers: &mut [u8]) {
    assert_eq!(answers.len(), ANSWER_LENGTH * events.len());
    // The answers have room for each event's, as was just seen.
    unsafe { table_run(events.as_ptr(), events.len(), answers.as_mut_ptr()) }
}
