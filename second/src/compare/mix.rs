//! Random cases, most of them cheap.

use crate::compare::found;
use crate::compare::large::{
    full_proposal, longest_input, many_pairs, many_records_judged, many_records_on_a_feed,
    many_records_printed, record_met_again,
};
use crate::compare::Input;
use crate::expression_file::{self, Record};
use crate::generate::feeds::{events_for, random_feed};
use crate::generate::limits::past_a_power_of_two;
use crate::generate::rules::rule_of_size;
use crate::random::Random;
use crate::worked::at_random::{
    any_proposal, busy, damaged_printer, damaged_proposal, feed, feed_for_a_damaged_rule, history,
    printer, spoiled_proposal, true_proposal,
};
use crate::worked::Case;

type Maker = fn(&mut Random) -> Case;

/// How often each case comes, beside the others.
///
/// Judging takes milliseconds where running takes microseconds, and the last seven take longest.
const MIX: [(usize, Maker); 21] = [
    (2200, feed),
    (400, rule_that_goes_on),
    (1500, feed_for_a_damaged_rule),
    (300, feed_with_any_place),
    (400, rule_at_the_largest_size),
    (30, enormous_rule),
    (2000, history),
    (1300, printer),
    (800, damaged_printer),
    (300, any_bytes),
    (300, any_proposal),
    (150, damaged_proposal),
    (250, true_proposal),
    (300, spoiled_proposal),
    (20, many_pairs),
    (20, record_met_again),
    (20, many_records_on_a_feed),
    (20, many_records_printed),
    (5, longest_input),
    (2, many_records_judged),
    (2, full_proposal),
];

/// How many inputs there are to one desk that holds any values.
const FOUND_DESK_ONCE_IN: usize = 16;

pub fn inputs(count: usize, seed: u64) -> impl Iterator<Item = Input> {
    let mut random = Random::seeded(seed);
    (0..count).map(move |_| {
        if random.once_in(FOUND_DESK_ONCE_IN) {
            Input::FoundDesk(found::at_random(&mut random))
        } else {
            Input::Case(choose(&mut random)(&mut random))
        }
    })
}

fn choose(random: &mut Random) -> Maker {
    let all: usize = MIX.iter().map(|(often, _)| often).sum();
    let mut chosen = random.below(all);
    for (often, make) in MIX {
        if chosen < often {
            return make;
        }
        chosen -= often;
    }
    unreachable!("what was chosen is below the sum of all")
}

/// Places so far out that adding to them starts again from 0.
fn feed_with_any_place(random: &mut Random) -> Case {
    let feed = random_feed(random);
    let place = match random.below(3) {
        0 => usize::MAX - random.below(300),
        1 => random.number() as usize,
        _ => (usize::MAX >> random.below(64)).wrapping_add(random.below(3)),
    };
    Case::run(&feed.rule_file, &feed.events, feed.buffer.len(), place)
}

/// Sizes 62 to 66.
fn rule_at_the_largest_size(random: &mut Random) -> Case {
    let size = random.between(62, 66);
    let records = rule_of_size(random, size);
    run_in_any_way(random, &records)
}

/// Its size is near a power of two, where it would be small if it were kept in too few bits.
fn enormous_rule(random: &mut Random) -> Case {
    let bits = match random.below(2) {
        0 => *random.pick(&[8, 16, 32, 64, 128]),
        _ => random.between(2, 300) as u16,
    };
    let records = past_a_power_of_two(bits, random.below(5) as u16);
    run_in_any_way(random, &records)
}

fn run_in_any_way(random: &mut Random, records: &[Record]) -> Case {
    let rule_file = expression_file::write(records);
    let count = random.below(50);
    let events = events_for(random, records, count);
    match random.below(3) {
        0 => Case::run(&rule_file, &events, 7 * count + random.below(3), 0),
        1 => Case::desk(&rule_file, &events),
        _ => Case::printer(&rule_file, &events),
    }
}

fn rule_that_goes_on(random: &mut Random) -> Case {
    let events = *random.pick(&[30, 100, 300]);
    busy(random, events)
}

/// Two in three are of small bytes only, which come closer to a record.
fn any_bytes(random: &mut Random) -> Case {
    let highest = *random.pick(&[9, 17, 255]);
    let count = random.below(60);
    let bytes: Vec<u8> = (0..count)
        .map(|_| random.between(0, highest) as u8)
        .collect();
    let (first, rest) = bytes.split_at(random.between(0, count));
    match random.below(4) {
        0 => Case::run(first, rest, 7 * rest.len(), 0),
        1 => Case::desk(first, rest),
        2 => Case::proposal(first, rest),
        _ => Case::printer(first, rest),
    }
}
