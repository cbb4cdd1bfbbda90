//! Random expressions.

use crate::random::Random;
use crate::tree::{build, Tree};

/// The few events a rule speaks of: few, so that a random feed meets them often.
pub fn random_alphabet(random: &mut Random) -> Vec<u8> {
    let count = random.between(1, 4);
    match random.below(3) {
        0 => vec![0, 255, 127, 128][..count].to_vec(),
        1 => random.bytes(count),
        _ => b"abcd"[..count].to_vec(),
    }
}

/// Small sets, sets at both ends of the 16 bits, the empty set and any set.
pub fn random_notices(random: &mut Random) -> u16 {
    match random.below(4) {
        0 => *random.pick(&[0, 0x8000, 0xffff, 0x0100, 0x00ff]),
        1 => random.number() as u16,
        _ => 1 << random.below(16),
    }
}

/// Makes expressions of a given size and now and then uses one again, so that parts are shared.
pub struct Grower<'a> {
    random: &'a mut Random,
    alphabet: Vec<u8>,
    grown: Vec<Tree>,
}

impl<'a> Grower<'a> {
    pub fn new(random: &'a mut Random, alphabet: &[u8]) -> Grower<'a> {
        Grower {
            random,
            alphabet: alphabet.to_vec(),
            grown: Vec::new(),
        }
    }

    /// An expression of exactly this size, shared parts written out.
    pub fn tree_of_size(&mut self, size: usize) -> Tree {
        if let Some(tree) = self.one_grown_before(size) {
            return tree;
        }
        let tree = match size {
            1 => self.leaf(),
            2 => self.with_one_part(1),
            _ if self.random.below(5) < 2 => self.with_one_part(size - 1),
            _ => {
                let first = self.random.between(1, size - 2);
                self.with_two_parts(first, size - 1 - first)
            }
        };
        self.grown.push(tree.clone());
        tree
    }

    fn one_grown_before(&mut self, size: usize) -> Option<Tree> {
        if !self.random.once_in(4) {
            return None;
        }
        let mut fitting = self.grown.clone();
        fitting.retain(|tree| tree.size() == size as u64);
        (!fitting.is_empty()).then(|| self.random.pick(&fitting).clone())
    }

    fn leaf(&mut self) -> Tree {
        if self.random.once_in(12) {
            build::silent()
        } else {
            build::event(*self.random.pick(&self.alphabet))
        }
    }

    fn with_one_part(&mut self, size: usize) -> Tree {
        let x = self.tree_of_size(size);
        match self.random.below(4) {
            0 => build::not(&x),
            1 => build::repeat(&x),
            _ => build::notify(&x, random_notices(self.random)),
        }
    }

    fn with_two_parts(&mut self, first_size: usize, second_size: usize) -> Tree {
        let x = self.tree_of_size(first_size);
        let y = self.tree_of_size(second_size);
        match self.random.below(3) {
            0 => build::either(&x, &y),
            1 => build::then(&x, &y),
            _ => build::try_unless(&x, &y),
        }
    }
}

/// A random expression of exactly this size over an alphabet.
pub fn tree_of_size(random: &mut Random, alphabet: &[u8], size: usize) -> Tree {
    Grower::new(random, alphabet).tree_of_size(size)
}
