//! Random files: valid, damaged, and any bytes at all.

use super::{Case, Group};
use crate::expression_file;
use crate::generate::damage::randomly_damaged;
use crate::generate::rules::{records_with_sharing, running_rule};
use crate::pair_file::{self, Pair};
use crate::random::Random;

pub fn groups() -> Vec<Group> {
    let mut random = Random::seeded(2024);
    let mut many = |name, count, make: fn(&mut Random) -> Case| Group {
        name,
        cases: (0..count).map(|_| make(&mut random)).collect(),
    };
    vec![
        many("random valid files", 50, valid),
        many(
            "random damaged expression files",
            50,
            with_damaged_expressions,
        ),
        many("random damaged pair files", 30, with_damaged_pairs),
        many("random bytes", 30, any_bytes),
    ]
}

/// At most 64 records; one pair file in eight may name a record that isn't there.
pub fn valid(random: &mut Random) -> Case {
    let records = match random.below(3) {
        0 => running_rule(random),
        1 => {
            let count = random.between(1, 60);
            records_with_sharing(random, count, 64)
        }
        _ => {
            let count = random.between(1, 60);
            records_with_sharing(random, count, u64::MAX)
        }
    };
    let beyond = usize::from(random.once_in(8));
    let count = random.between(1, 12);
    let mut number = || random.below(records.len() + beyond) as u16;
    let pairs: Vec<Pair> = (0..count)
        .map(|_| Pair {
            left: number(),
            right: number(),
        })
        .collect();
    Case {
        expression_file: expression_file::write(&records),
        pair_file: pair_file::write(&pairs),
    }
}

fn with_damaged_expressions(random: &mut Random) -> Case {
    let mut case = valid(random);
    case.expression_file = randomly_damaged(random, &case.expression_file);
    case
}

fn with_damaged_pairs(random: &mut Random) -> Case {
    let mut case = valid(random);
    case.pair_file = randomly_damaged(random, &case.pair_file);
    case
}

/// Two in three are of small bytes only, which come closer to a record.
fn any_bytes(random: &mut Random) -> Case {
    let highest = *random.pick(&[9, 17, 255]);
    let mut file = || {
        let count = random.below(40);
        (0..count)
            .map(|_| random.between(0, highest) as u8)
            .collect()
    };
    Case {
        expression_file: file(),
        pair_file: file(),
    }
}
