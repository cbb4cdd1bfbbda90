//! The swap rule of the worked examples.

use crate::construct::Construct::{Event, Notify, Repeat, Then, Try};
use crate::expression_file::{self, Record};

/// repeat (o then try (notify (a then c), 3) unless w)
pub fn swap_records() -> Vec<Record> {
    vec![
        Event(b'o'),
        Event(b'a'),
        Event(b'c'),
        Event(b'w'),
        Then(1, 2),
        Notify(4, 3),
        Try(5, 3),
        Then(0, 6),
        Repeat(7),
    ]
}

pub fn swap_file() -> Vec<u8> {
    expression_file::write(&swap_records())
}
