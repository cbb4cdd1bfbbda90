//! Desks found with any values in their fields, and calls on them.
//!
//! Nothing is said of what a rule answers there, but every call must return, and much must stay.

use crate::compare::engine::Engine;
use crate::compare::fields::Fields;
use crate::examples::swap_file;
use crate::expression_file;
use crate::generate::feeds::{events_for, random_rule};
use crate::random::Random;
use crate::worked::at_random::openings_and_steps;
use crate::worked::{steps, Call};

#[derive(Clone, Debug, PartialEq, Eq)]
pub struct FoundDesk {
    pub origin: Origin,
    pub calls: Vec<Call>,
}

/// How the desk came to hold what it holds.
#[derive(Clone, Debug, PartialEq, Eq)]
pub enum Origin {
    Filled(Box<Fields>),
    /// By calls on an empty desk, and then some bytes of its fields were changed.
    Altered {
        calls: Vec<Call>,
        changes: Vec<Change>,
    },
}

/// One byte, counted through the bytes of all fields.
#[derive(Clone, Copy, Debug, PartialEq, Eq)]
pub struct Change {
    pub place: usize,
    pub value: u8,
}

impl Origin {
    pub fn desk<E: Engine>(&self, engine: &E) -> E::Desk {
        match self {
            Origin::Filled(fields) => engine.desk_holding(fields),
            Origin::Altered { calls, changes } => {
                let mut desk = engine.empty_desk();
                for call in calls {
                    match call {
                        Call::Open(rule_file) => drop(engine.open(&mut desk, rule_file)),
                        Call::Step(event) => drop(engine.step(&mut desk, *event)),
                    }
                }
                let mut bytes = engine.fields(&desk).to_bytes();
                for change in changes {
                    bytes[change.place] = change.value;
                }
                engine.desk_holding(&Fields::from_bytes(&bytes))
            }
        }
    }
}

const MARKS: [u8; 5] = [0, 1, 2, 128, 255];
const FILLS: [u8; 8] = [0, 1, 2, 6, 8, 63, 64, 255];

/// Every choice of the mark and of what is in play, over fields filled with one value.
pub fn filled() -> impl Iterator<Item = FoundDesk> {
    FILLS.into_iter().flat_map(|fill| {
        let in_play = [0, 1, 1 << 63, u64::MAX, u64::from_le_bytes([fill; 8])];
        in_play
            .into_iter()
            .flat_map(move |active| MARKS.map(|is_open| filled_with(fill, is_open, active)))
    })
}

/// Stepped on, opened upon with a file that is refused, stepped on, opened upon, stepped on.
fn filled_with(fill: u8, is_open: u8, active: u64) -> FoundDesk {
    let fields = Fields {
        is_open,
        active,
        ..Fields::from_bytes(&[fill; Fields::LENGTH])
    };
    let mut calls: Vec<Call> = steps(&[b'o', fill]).collect();
    calls.push(Call::Open(swap_file()[..57].to_vec()));
    calls.extend(steps(b"a"));
    calls.push(Call::Open(swap_file()));
    calls.extend(steps(b"oacowo"));
    FoundDesk {
        origin: Origin::Filled(Box::new(fields)),
        calls,
    }
}

pub fn at_random(random: &mut Random) -> FoundDesk {
    let count = random.between(1, 6);
    let (origin, events) = match random.below(3) {
        0 => altered(random, count),
        _ => filled_at_random(random, count),
    };
    let mut calls: Vec<Call> = steps(&events).collect();
    calls.extend(openings_and_steps(random));
    FoundDesk { origin, calls }
}

/// With events for it: any, or bytes of its nodes.
fn filled_at_random(random: &mut Random, count: usize) -> (Origin, Vec<u8>) {
    let fields = random_fields(random);
    let of_nodes = fields.nodes.map(u16::to_le_bytes).concat();
    let events = (0..count)
        .map(|_| match random.below(3) {
            0 => random.byte(),
            _ => *random.pick(&of_nodes),
        })
        .collect();
    (Origin::Filled(Box::new(fields)), events)
}

/// Small bytes only in two of four, which come closer to what calls make. The mark is often 0, and
/// often nothing is in play.
fn random_fields(random: &mut Random) -> Fields {
    let highest = *random.pick(&[9, 70, 255, 255]);
    let bytes: Vec<u8> = (0..Fields::LENGTH)
        .map(|_| random.between(0, highest) as u8)
        .collect();
    let mut fields = Fields::from_bytes(&bytes);
    if random.once_in(4) {
        fields.is_open = 0;
    }
    if random.once_in(4) {
        fields.active = 0;
    }
    if random.once_in(2) {
        fields.root = random.below(66);
    }
    fields
}

/// With events that the rule speaks of.
fn altered(random: &mut Random, count: usize) -> (Origin, Vec<u8>) {
    let records = random_rule(random);
    let mut calls = vec![Call::Open(expression_file::write(&records))];
    let before = random.below(10);
    calls.extend(steps(&events_for(random, &records, before)));
    let changes = (0..random.between(1, 6))
        .map(|_| Change {
            place: any_place(random),
            value: match random.below(2) {
                0 => random.below(66) as u8,
                _ => random.byte(),
            },
        })
        .collect();
    let events = events_for(random, &records, count);
    (Origin::Altered { calls, changes }, events)
}

/// In any field as often as in any other, however many bytes it has.
fn any_place(random: &mut Random) -> usize {
    let all = Fields::from_bytes(&[]).by_name();
    let lengths = all.map(|(_, bytes)| bytes.len());
    let (before, from) = lengths.split_at(random.below(lengths.len()));
    before.iter().sum::<usize>() + random.below(from[0])
}
