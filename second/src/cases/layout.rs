//! Kinds that aren't in the list, lengths off by a little, and the order of the bytes.

use super::{about_expressions, about_pairs, Case, Expected, Group};
use crate::cases::faults::one_of_each;
use crate::construct::Construct::*;
use crate::expression_file::{self, write_record, Record};
use crate::generate::limits::chain_of_nots;
use crate::number::Number::*;
use crate::pair_file::{self, Pair, PAIR_KIND};
use crate::records::raw_record;

pub fn groups() -> Vec<Group> {
    vec![
        about_expressions("kinds not in the expression file's list", kinds()),
        about_pairs("kinds not in the pair file's list", pair_kinds()),
        about_expressions("lengths that aren't the kind's", lengths()),
        about_pairs("lengths that aren't a pair's", pair_lengths()),
        about_expressions("order of bytes", byte_order()),
        Group {
            name: "order of bytes in pairs",
            cases: byte_order_in_pairs(),
        },
    ]
}

pub fn kinds() -> Vec<Expected> {
    let leaves = expression_file::write(&[Event(b'a'), Event(b'b')]);
    let mut files = Vec::new();
    // 256, 512, 2048 and 257 are 1, 2, 8 and 1 with their bytes exchanged or cut.
    for kind in [
        0, 9, 10, 15, 16, 17, 32, 256, 257, 512, 2048, 32767, 32768, 65535,
    ] {
        files.push((UnknownKind, raw_record(4, kind, &[])));
        let with_body = raw_record(8, kind, &[0, 0, 1, 0]);
        files.push((UnknownKind, [leaves.clone(), with_body].concat()));
    }
    files
}

pub fn pair_kinds() -> Vec<Expected> {
    let kinds = [
        0, 1, 2, 4, 8, 9, 15, 17, 32, 256, 4096, 4112, 32767, 32768, 65535,
    ];
    let files = kinds.map(|kind| (UnknownKind, raw_record(8, kind, &[0, 0, 1, 0])));
    files.to_vec()
}

/// A record of each kind under another length, with as many bytes as it says where that is few.
pub fn lengths() -> Vec<Expected> {
    let leaves = expression_file::write(&[Event(b'x'), Event(b'y')]);
    let mut files = Vec::new();
    for record in one_of_each() {
        let bytes = write_record(&record);
        let kind = bytes[2];
        let true_length = bytes.len() as u16;
        let exchanged = true_length.swap_bytes();
        for length in [true_length - 1, true_length + 1, 0, exchanged] {
            let mut body = bytes[4..].to_vec();
            body.resize(usize::from(length.clamp(4, 12)) - 4, 0);
            let changed = raw_record(length, u16::from(kind), &body);
            files.push((WrongLength, [leaves.clone(), changed].concat()));
        }
    }
    files
}

pub fn pair_lengths() -> Vec<Expected> {
    let lengths = [0, 4, 6, 7, 9, 10, 16, 264, 2048, 65535];
    let files = lengths.map(|length| {
        let body = [0, 0, 1, 0, 0, 0, 0, 0];
        (WrongLength, raw_record(length, PAIR_KIND, &body))
    });
    files.to_vec()
}

pub fn byte_order() -> Vec<Expected> {
    let event = write_record(&Event(b'a'));
    let mut files = vec![
        // the whole record, its length alone, its kind alone, with the high byte first
        (UnknownKind, vec![0, 5, 0, 2, b'a']),
        (WrongLength, vec![0, 5, 2, 0, b'a']),
        (UnknownKind, vec![5, 0, 0, 2, b'a']),
        // part 1 with the high byte first is part 256
        (
            NotAnEarlierRecord,
            [event.clone(), write_record(&Not(0)), vec![6, 0, 6, 0, 0, 1]].concat(),
        ),
        // two notice sets that differ in the order of their bytes are two records
        (
            Accepted,
            expression_file::write(&[Event(b'a'), Notify(0, 0x0102), Notify(0, 0x0201)]),
        ),
        (
            SameAsEarlierRecord,
            expression_file::write(&[Event(b'a'), Notify(0, 0x0102), Notify(0, 0x0102)]),
        ),
    ];
    // Both orders name an earlier record; the size tells which one was taken.
    let last_records: [Record; 5] = [
        Repeat(0x0001),
        Repeat(0x0100),
        Either(0x0002, 0x0003),
        Either(0x0002, 0x0100),
        Notify(0x0003, 0x0100),
    ];
    for last in last_records {
        let mut records = chain_of_nots(300);
        records.push(last);
        files.push((Accepted, expression_file::write(&records)));
    }
    files
}

/// Record 256 is there or not; its number with the bytes exchanged is 1, which always is.
fn byte_order_in_pairs() -> Vec<Case> {
    let mut cases = Vec::new();
    for count in [256, 257] {
        for (left, right) in [(0x0100, 0), (0, 0x0100), (1, 1)] {
            cases.push(Case {
                expression_file: expression_file::write(&chain_of_nots(count)),
                pair_file: pair_file::write(&[Pair { left, right }]),
            });
        }
    }
    cases
}
