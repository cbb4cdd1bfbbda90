//! Sizes, numbers of records and pairs, room, place and length of input at their limits.

use super::{Case, Group};
use crate::construct::Construct::*;
use crate::examples::swap_file;
use crate::expression_file::{self, Record};
use crate::generate::equations::commuting_chains;
use crate::generate::limits::{chain_of_nots, doubling, many_notifies, same_pair, stretched};
use crate::pair_file::{self, Pair};
use crate::printer::LONGEST_INPUT;

pub fn groups() -> Vec<Group> {
    let group = |name, cases| Group { name, cases };
    vec![
        group("sizes 63 to 65", sizes()),
        group("records 1,024 and 1,025", records()),
        group("pairs 256 and 257", pairs()),
        group("room and place", room_and_place()),
        group("printer inputs of 8,192 and 8,193 bytes", input_lengths()),
    ]
}

fn sizes() -> Vec<Case> {
    let sixty_three = doubling(6);
    let with = |last: Record| [&sixty_three[..], &[last]].concat();
    let rules = [
        chain_of_nots(63),
        chain_of_nots(64),
        chain_of_nots(65),
        with(Not(5)),
        with(Either(5, 0)),
        with(Then(0, 5)),
        doubling(65),
    ];
    let mut cases = Vec::new();
    for rule in rules {
        let file = expression_file::write(&rule);
        cases.push(Case::run(&file, b"ba", 20, 3));
        cases.push(Case::desk(&file, b"baa"));
        cases.push(Case::printer(&file, b"ba"));
    }
    cases
}

/// The rule runs where it is small; a record more is refused before its size is looked at.
fn records() -> Vec<Case> {
    let notified: [Record; 3] = [Event(b'a'), Event(b'b'), Then(0, 1)];
    let mut cases = Vec::new();
    for count in [1024, 1025] {
        let file = expression_file::write(&many_notifies(count));
        cases.push(Case::run(&file, b"ba", 14, 0));
        cases.push(Case::proposal(&file, &pair_file::write(&first_and_last())));
        cases.push(Case::desk(&file, b"aa"));
        let file = expression_file::write(&stretched(&notified, count));
        cases.push(Case::run(&file, b"ab", 20, 6));
        let file = expression_file::write(&chain_of_nots(count));
        cases.push(Case::printer(&file, b"a"));
    }
    cases
}

/// Records 0 and 1,023: the last that 1,024 records have.
fn first_and_last() -> Vec<Pair> {
    let pairs = [(1023, 1023), (0, 1023)].map(|(left, right)| Pair { left, right });
    pairs.to_vec()
}

fn pairs() -> Vec<Case> {
    let small = expression_file::write(&[Event(b'a'), Repeat(0), Then(0, 1)]);
    let same = |left, right, count| pair_file::write(&same_pair(Pair { left, right }, count));
    let mut cases = vec![
        Case::proposal(&small, &same(1, 2, 256)),
        Case::proposal(&small, &same(1, 2, 257)),
        Case::proposal(&small, &same(1, 1, 256)),
        Case::proposal(&small, &[same(2, 2, 255), same(1, 0, 1)].concat()),
    ];
    // A pair for every two states of two chains; then one pair less, and one more.
    if let Some(full) = commuting_chains(16, 16) {
        let all = full.pair_file();
        let again = [&all[..], &all[..8]].concat();
        for pair_file in [&all[..], &all[..all.len() - 8], &again] {
            cases.push(Case::proposal(&full.expression_file(), pair_file));
        }
    }
    cases
}

fn room_and_place() -> Vec<Case> {
    let swap = swap_file();
    let none = b"";
    let mut cases = vec![
        // one event
        Case::run(&swap, b"o", 7, 0),
        Case::run(&swap, b"o", 6, 0),
        Case::run(&swap, b"o", 8, 1),
        Case::run(&swap, b"o", 8, 2),
        Case::run(&swap, b"o", 0, 0),
        // no events: at the end, and past it
        Case::run(&swap, none, 4, 4),
        Case::run(&swap, none, 4, 0),
        Case::run(&swap, none, 0, 0),
        Case::run(&swap, none, 4, 5),
        Case::run(&swap, none, 0, 1),
        Case::run(&swap, none, 9, 0xffff_ffff),
        // a place so far out that adding the room needed might start again from 0
        Case::run(&swap, b"oac", 40, 0xffff_ffff),
        Case::run(&swap, b"oac", 40, 0xffff_ffeb),
        Case::run(&swap, b"oac", 40, 0x8000_0000),
        // three events: exactly enough, one byte short, one byte over
        Case::run(&swap, b"oac", 30, 9),
        Case::run(&swap, b"oac", 29, 9),
        Case::run(&swap, b"oac", 31, 9),
        Case::run(&swap, b"oac", 30, 10),
        Case::run(&swap, b"oac", 512, 491),
        Case::run(&swap, b"oac", 512, 492),
        Case::run(&swap, &b"oac".repeat(24), 512, 4),
        Case::run(&swap, &[b'o'; 73], 512, 1),
        Case::run(&swap, &[b'o'; 73], 512, 2),
        Case::run(&swap, &[b'o'; 74], 512, 0),
    ];
    // The file is looked at first, then the size, then the room.
    let too_large = expression_file::write(&chain_of_nots(65));
    cases.push(Case::run(&too_large, b"oac", 5, 9));
    cases.push(Case::run(&too_large[..9], b"oac", 5, 9));
    cases.push(Case::run(&[], none, 5, 9));
    cases
}

fn input_lengths() -> Vec<Case> {
    let longest = |rule_file: &[u8], event: u8, beyond: usize| {
        let events = vec![event; LONGEST_INPUT + beyond - 2 - rule_file.len()];
        Case::printer(rule_file, &events)
    };
    let full = expression_file::write(&many_notifies(1024));
    let silent = expression_file::write(&[Silent]);
    vec![
        longest(&full, b'a', 0),
        longest(&full, b'a', 1),
        longest(&swap_file(), b'o', 0),
        longest(&swap_file(), b'o', 1),
        longest(&silent, 0, 1),
        Case::Printer(vec![0; LONGEST_INPUT]),
        Case::Printer(vec![0; LONGEST_INPUT + 1]),
        Case::Printer(vec![255; LONGEST_INPUT]),
        Case::Printer(vec![255; LONGEST_INPUT + 1]),
        Case::Printer(vec![8; 2 * LONGEST_INPUT]),
    ]
}
