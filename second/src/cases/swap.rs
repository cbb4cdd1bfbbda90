//! The swap file and a small pair file, cut at every byte and changed byte by byte.

use super::{Case, Group};
use crate::examples::swap_file;
use crate::generate::damage::{cut_at_every_byte, near_values, with_byte};
use crate::pair_file::{self, Pair};

pub fn groups() -> Vec<Group> {
    vec![
        Group {
            name: "swap file cut at every byte",
            cases: beside_pairs(cut_at_every_byte(&swap_file())),
        },
        Group {
            name: "pair file cut at every byte",
            cases: beside_swap(cut_at_every_byte(&small_pair_file())),
        },
        Group {
            name: "swap file with one byte replaced",
            cases: beside_pairs(with_bytes_replaced(&swap_file())),
        },
        Group {
            name: "pair file with one byte replaced",
            cases: beside_swap(with_bytes_replaced(&small_pair_file())),
        },
    ]
}

/// The first pair names the last record, so that a shorter swap file leaves it without one.
fn small_pair_file() -> Vec<u8> {
    let pairs = [(8, 8), (0, 1), (7, 8)].map(|(left, right)| Pair { left, right });
    pair_file::write(&pairs)
}

fn beside_pairs(expression_files: Vec<Vec<u8>>) -> Vec<Case> {
    let beside = |expression_file| Case {
        expression_file,
        pair_file: small_pair_file(),
    };
    expression_files.into_iter().map(beside).collect()
}

fn beside_swap(pair_files: Vec<Vec<u8>>) -> Vec<Case> {
    let beside = |pair_file| Case {
        expression_file: swap_file(),
        pair_file,
    };
    pair_files.into_iter().map(beside).collect()
}

/// One value at each place; neighbouring places take different ones, so that all sorts come up.
fn with_bytes_replaced(file: &[u8]) -> Vec<Vec<u8>> {
    let mut files = Vec::new();
    for (place, value) in file.iter().enumerate() {
        let values = near_values(*value);
        files.push(with_byte(file, place, values[place % values.len()]));
    }
    files
}
