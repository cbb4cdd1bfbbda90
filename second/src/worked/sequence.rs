//! Cases as bytes.
//!
//! A case is a byte of kind and what belongs to it. A byte string stands behind its length; lengths,
//! rooms and places are four bytes, little-endian. The calls on a desk are one byte string: an
//! opening is 0 and the rule file as a byte string; a step is 1 and the event.

use super::{Call, Case};

const RUN: u8 = 1;
const DESK: u8 = 2;
const PROPOSAL: u8 = 3;
const PRINTER: u8 = 4;

const OPEN: u8 = 0;
const STEP: u8 = 1;

/// Files longer and places farther than their fields can say are not for storing.
pub fn write(cases: &[Case]) -> Vec<u8> {
    let mut bytes = Vec::new();
    for case in cases {
        match case {
            Case::Run {
                rule_file,
                events,
                room,
                place,
            } => {
                bytes.push(RUN);
                put_string(&mut bytes, rule_file);
                put_string(&mut bytes, events);
                put_number(&mut bytes, *room);
                put_number(&mut bytes, *place);
            }
            Case::Desk(calls) => {
                bytes.push(DESK);
                put_string(&mut bytes, &write_calls(calls));
            }
            Case::Proposal {
                expression_file,
                pair_file,
            } => {
                bytes.push(PROPOSAL);
                put_string(&mut bytes, expression_file);
                put_string(&mut bytes, pair_file);
            }
            Case::Printer(input) => {
                bytes.push(PRINTER);
                put_string(&mut bytes, input);
            }
        }
    }
    bytes
}

pub fn write_calls(calls: &[Call]) -> Vec<u8> {
    let mut bytes = Vec::new();
    for call in calls {
        match call {
            Call::Open(rule_file) => {
                bytes.push(OPEN);
                put_string(&mut bytes, rule_file);
            }
            Call::Step(event) => bytes.extend([STEP, *event]),
        }
    }
    bytes
}

fn put_number(bytes: &mut Vec<u8>, number: usize) {
    bytes.extend((number as u32).to_le_bytes());
}

fn put_string(bytes: &mut Vec<u8>, string: &[u8]) {
    put_number(bytes, string.len());
    bytes.extend(string);
}

/// The cases of a sequence; nothing if it isn't one.
pub fn read(mut bytes: &[u8]) -> Option<Vec<Case>> {
    let mut cases = Vec::new();
    while !bytes.is_empty() {
        cases.push(match take(&mut bytes, 1)?[0] {
            RUN => Case::Run {
                rule_file: take_string(&mut bytes)?,
                events: take_string(&mut bytes)?,
                room: take_number(&mut bytes)?,
                place: take_number(&mut bytes)?,
            },
            DESK => Case::Desk(read_calls(&take_string(&mut bytes)?)?),
            PROPOSAL => Case::Proposal {
                expression_file: take_string(&mut bytes)?,
                pair_file: take_string(&mut bytes)?,
            },
            PRINTER => Case::Printer(take_string(&mut bytes)?),
            _ => return None,
        });
    }
    Some(cases)
}

fn read_calls(mut bytes: &[u8]) -> Option<Vec<Call>> {
    let mut calls = Vec::new();
    while !bytes.is_empty() {
        calls.push(match take(&mut bytes, 1)?[0] {
            OPEN => Call::Open(take_string(&mut bytes)?),
            STEP => Call::Step(take(&mut bytes, 1)?[0]),
            _ => return None,
        });
    }
    Some(calls)
}

fn take<'a>(bytes: &mut &'a [u8], count: usize) -> Option<&'a [u8]> {
    let (taken, rest) = bytes.split_at_checked(count)?;
    *bytes = rest;
    Some(taken)
}

fn take_number(bytes: &mut &[u8]) -> Option<usize> {
    let four = take(bytes, 4)?.try_into().ok()?;
    usize::try_from(u32::from_le_bytes(four)).ok()
}

fn take_string(bytes: &mut &[u8]) -> Option<Vec<u8>> {
    let length = take_number(bytes)?;
    Some(take(bytes, length)?.to_vec())
}
