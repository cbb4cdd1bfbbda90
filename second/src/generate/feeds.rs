//! Rules with events and a buffer, and inputs for the printer.

use crate::construct::Construct;
use crate::expression_file::{self, Record};
use crate::feed::ANSWER_LENGTH;
use crate::generate::damage::randomly_damaged;
use crate::generate::rules::{records_with_sharing, running_rule};
use crate::random::Random;

/// Everything a whole feed is given.
#[derive(Clone, Debug)]
pub struct Feed {
    pub rule_file: Vec<u8>,
    pub events: Vec<u8>,
    pub buffer: Vec<u8>,
    pub place: usize,
}

/// Mostly events the rule speaks of, now and then any event.
pub fn events_for(random: &mut Random, records: &[Record], count: usize) -> Vec<u8> {
    let spoken_of: Vec<u8> = records
        .iter()
        .filter_map(|record| match record {
            Construct::Event(event) => Some(*event),
            _ => None,
        })
        .collect();
    (0..count)
        .map(|_| {
            if spoken_of.is_empty() || random.once_in(6) {
                random.byte()
            } else {
                *random.pick(&spoken_of)
            }
        })
        .collect()
}

/// A rule that mostly runs; now and then its size is a little above 64.
pub fn random_rule(random: &mut Random) -> Vec<Record> {
    if random.once_in(4) {
        let count = random.between(1, 30);
        records_with_sharing(random, count, 70)
    } else {
        running_rule(random)
    }
}

/// A rule file that mostly runs, and events for it.
pub fn rule_and_events(random: &mut Random, most_events: usize) -> (Vec<u8>, Vec<u8>) {
    let records = random_rule(random);
    let count = random.between(0, most_events);
    let events = events_for(random, &records, count);
    let mut rule_file = expression_file::write(&records);
    if random.once_in(12) {
        rule_file = randomly_damaged(random, &rule_file);
    }
    (rule_file, events)
}

/// A feed whose buffer is mostly large enough, filled with bytes that must stay.
pub fn random_feed(random: &mut Random) -> Feed {
    let (rule_file, events) = rule_and_events(random, 40);
    let needed = events.len() * ANSWER_LENGTH;
    let before = random.below(20);
    let after = random.below(20);
    let (length, place) = match random.below(8) {
        // One byte short, exactly enough, and a place past the end.
        0 => ((before + needed).saturating_sub(1), before),
        1 => (before + needed, before),
        2 => (before + needed, before + needed + 1 + after),
        _ => (before + needed + after, before),
    };
    Feed {
        rule_file,
        events,
        buffer: random.bytes(length),
        place,
    }
}

/// The rule file's length, that file, the events; the length is now and then not the true one.
pub fn random_printer_input(random: &mut Random) -> Vec<u8> {
    let (rule_file, events) = rule_and_events(random, 60);
    let mut length = rule_file.len() as u16;
    if random.once_in(10) {
        length = length
            .wrapping_add(random.between(0, 4) as u16)
            .wrapping_sub(2);
    }
    printer_input(length, &rule_file, &events)
}

pub fn printer_input(length: u16, rule_file: &[u8], events: &[u8]) -> Vec<u8> {
    [&length.to_le_bytes()[..], rule_file, events].concat()
}
