//! The fields of a desk, as the C header has them.

use std::mem::size_of;

const NODES: usize = 64;

#[repr(C)]
#[derive(Clone, Copy, Debug, PartialEq, Eq)]
pub struct Fields {
    /// Any value but 0 says that a rule is open.
    pub is_open: u8,
    pub root: usize,
    pub leaves: u64,
    pub repeats: u64,
    /// 0 says that an open rule has finished. A step changes this field and the next, no other.
    pub active: u64,
    /// What a step answers and leaves doesn't depend on it.
    pub going: u64,
    pub nodes: [u16; NODES],
    pub gain: [u64; NODES],
}

impl Fields {
    /// How many bytes the fields have together, without those between them in memory.
    pub const LENGTH: usize = 1 + size_of::<usize>() + 4 * 8 + NODES * (2 + 8);

    /// From the bytes of one field after the other, each lowest first. Missing ones are 0.
    pub fn from_bytes(bytes: &[u8]) -> Fields {
        let mut bytes = bytes.iter().copied();
        Fields {
            is_open: u8::from_le_bytes(next(&mut bytes)),
            root: usize::from_le_bytes(next(&mut bytes)),
            leaves: u64::from_le_bytes(next(&mut bytes)),
            repeats: u64::from_le_bytes(next(&mut bytes)),
            active: u64::from_le_bytes(next(&mut bytes)),
            going: u64::from_le_bytes(next(&mut bytes)),
            nodes: [(); NODES].map(|()| u16::from_le_bytes(next(&mut bytes))),
            gain: [(); NODES].map(|()| u64::from_le_bytes(next(&mut bytes))),
        }
    }

    pub fn to_bytes(&self) -> Vec<u8> {
        self.by_name()
            .into_iter()
            .flat_map(|field| field.1)
            .collect()
    }

    /// Each field's name and its bytes.
    pub fn by_name(&self) -> [(&'static str, Vec<u8>); 8] {
        [
            ("is_open", vec![self.is_open]),
            ("root", self.root.to_le_bytes().to_vec()),
            ("leaves", self.leaves.to_le_bytes().to_vec()),
            ("repeats", self.repeats.to_le_bytes().to_vec()),
            ("active", self.active.to_le_bytes().to_vec()),
            ("going", self.going.to_le_bytes().to_vec()),
            ("nodes", self.nodes.map(u16::to_le_bytes).concat()),
            ("gain", self.gain.map(u64::to_le_bytes).concat()),
        ]
    }
}

fn next<const COUNT: usize>(bytes: &mut impl Iterator<Item = u8>) -> [u8; COUNT] {
    [(); COUNT].map(|()| bytes.next().unwrap_or_default())
}
