//! Changes to a proposal's records that change nothing about the proposal.

use crate::expression_file::{Record, MOST_RECORDS};
use crate::generate::closing::Proposal;
use crate::generate::rules::extended;
use crate::generate::trees::random_alphabet;
use crate::pair_file::Pair;
use crate::random::Random;

/// The same records in another order, parts first.
pub fn renumbered(random: &mut Random, proposal: &Proposal) -> Proposal {
    let count = proposal.records.len();
    let mut renumbering = Renumbering {
        records: &proposal.records,
        numbers: vec![None; count],
        placed: Vec::new(),
    };
    let mut order: Vec<u16> = (0..count as u16).collect();
    random.shuffle(&mut order);
    for number in order {
        renumbering.place(number);
    }
    let pairs = proposal.pairs.iter().map(|pair| Pair {
        left: renumbering.place(pair.left),
        right: renumbering.place(pair.right),
    });
    Proposal {
        pairs: pairs.collect(),
        records: renumbering.placed,
    }
}

/// The same proposal before some more records that it has no need of.
pub fn among_others(random: &mut Random, proposal: &Proposal) -> Proposal {
    let alphabet = random_alphabet(random);
    let count = proposal.records.len() + random.between(1, 20);
    let records = proposal.records.clone();
    Proposal {
        records: extended(
            random,
            &alphabet,
            records,
            count.min(MOST_RECORDS),
            u64::MAX,
        ),
        pairs: proposal.pairs.clone(),
    }
}

struct Renumbering<'a> {
    records: &'a [Record],
    /// The new number of each record that was placed.
    numbers: Vec<Option<u16>>,
    placed: Vec<Record>,
}

impl Renumbering<'_> {
    fn place(&mut self, old: u16) -> u16 {
        if let Some(number) = self.numbers[usize::from(old)] {
            return number;
        }
        let record = self.records[usize::from(old)].map(|part| self.place(*part));
        let number = self.placed.len() as u16;
        self.placed.push(record);
        self.numbers[usize::from(old)] = Some(number);
        number
    }
}
