//! An expression file made record by record.

use crate::files::record;

/// Adding a record gives its number.
#[derive(Default)]
pub struct Expressions {
    pub bytes: Vec<u8>,
    count: u8,
}

#[allow(dead_code)] // a test has the constructs that it needs
impl Expressions {
    fn add(&mut self, kind: u8, body: &[u8]) -> u8 {
        self.bytes.extend(record(kind, body));
        self.count += 1;
        self.count - 1
    }

    pub fn silent(&mut self) -> u8 {
        self.add(1, &[])
    }

    pub fn event(&mut self, event: u8) -> u8 {
        self.add(2, &[event])
    }

    pub fn not(&mut self, x: u8) -> u8 {
        self.add(3, &[x, 0])
    }

    pub fn either(&mut self, x: u8, y: u8) -> u8 {
        self.add(4, &[x, 0, y, 0])
    }

    pub fn then(&mut self, x: u8, y: u8) -> u8 {
        self.add(5, &[x, 0, y, 0])
    }

    pub fn repeat(&mut self, x: u8) -> u8 {
        self.add(6, &[x, 0])
    }

    pub fn notify(&mut self, x: u8, set: u8) -> u8 {
        self.add(7, &[x, 0, set, 0])
    }

    pub fn try_unless(&mut self, x: u8, y: u8) -> u8 {
        self.add(8, &[x, 0, y, 0])
    }
}
