//! Rules of every size that is a power of two, each with a feed that keeps it alive.

use second::generate::rules::file_of;
use second::tree::build::{either, event, notify, repeat, then};
use second::tree::Tree;

pub const SIZES: [usize; 7] = [1, 2, 4, 8, 16, 32, 64];
pub const LARGEST: usize = SIZES[SIZES.len() - 1];

pub const EVENTS: usize = 10_000;

pub struct Family {
    pub name: &'static str,
    /// What is repeated: one node smaller than the rule of this size.
    body: fn(size: usize) -> Tree,
    /// The event at a place of the feed for the rule of this size.
    event: fn(size: usize, place: usize) -> u8,
}

pub const FAMILIES: [Family; 4] = [
    Family {
        name: "wide, every part waits",
        body: |size| either_of(0, size as u8 / 2),
        event: |_, place| place as u8 | 0x80,
    },
    Family {
        name: "wide, every part completes and restarts",
        body: |size| (1..size.ilog2()).fold(event(b'a'), |x, _| either(&x, &x)),
        event: |_, _| b'a',
    },
    Family {
        name: "deep, every part completes and restarts",
        body: |size| (2..size as u16).fold(event(b'a'), |x, set| notify(&x, set)),
        event: |_, _| b'a',
    },
    Family {
        name: "a sequence, each event moves it on",
        body: |size| {
            let last = size as u8 / 2 - 1;
            (0..last)
                .rev()
                .fold(event(last), |rest, byte| then(&event(byte), &rest))
        },
        event: |size, place| (place % (size / 2)) as u8,
    },
];

/// Any of so many events, a power of two.
fn either_of(first: u8, count: u8) -> Tree {
    if count == 1 {
        return event(first);
    }
    let half = count / 2;
    either(&either_of(first, half), &either_of(first + half, half))
}

impl Family {
    pub fn rule(&self, size: usize) -> Vec<u8> {
        // There is nothing to repeat in one node; an event that doesn't come stays alive.
        let rule = if size == 1 {
            event(b'w')
        } else {
            repeat(&(self.body)(size))
        };
        assert_eq!(rule.size(), size as u64);
        file_of(&rule)
    }

    pub fn feed(&self, size: usize) -> Vec<u8> {
        let size = size.max(2);
        (0..EVENTS).map(|place| (self.event)(size, place)).collect()
    }
}
