//! All small cases of several sorts, in a fixed order.

use crate::construct::Construct::*;
use crate::examples::swap_file;
use crate::expression_file::{self, Record};
use crate::generate::closing::RecordList;
use crate::generate::damage::{cut_at_every_byte, with_byte};
use crate::generate::feeds::printer_input;
use crate::generate::rules::file_of;
use crate::pair_file::{self, Pair};
use crate::tree::build::{either, event, not, notify, repeat, silent, then, try_unless};
use crate::tree::Tree;
use crate::worked::{steps, Call, Case};

/// All but the printer inputs of [`printer_inputs`].
pub fn cases() -> impl Iterator<Item = Case> {
    rooms_and_places()
        .chain(byte_strings().flat_map(|bytes| as_every_file(&bytes)))
        .chain(changed_files())
        .chain(changed_proposals())
        .chain(small_proposals())
        .chain(small_rules())
}

/// Every place in and around every small buffer, and places that start again from 0 when added to.
fn rooms_and_places() -> impl Iterator<Item = Case> {
    let near = (0..=24).flat_map(|room| (0..=26).map(move |place| (room, place)));
    let far = (0..=30).flat_map(|less| [0, 24].map(|room| (room, usize::MAX - less)));
    near.chain(far).flat_map(|(room, place)| {
        let feeds: [&[u8]; 4] = [b"", b"o", b"oa", b"oac"];
        feeds.map(|events| Case::run(&swap_file(), events, room, place))
    })
}

/// Every byte string of at most two bytes.
pub fn byte_strings() -> impl Iterator<Item = Vec<u8>> {
    let one = (0..=255).map(|byte| vec![byte]);
    let two = (0..=65535).map(|both: u16| both.to_be_bytes().to_vec());
    std::iter::once(vec![]).chain(one).chain(two)
}

/// As a whole printer input.
pub fn printer_inputs() -> impl Iterator<Item = Case> {
    byte_strings().map(Case::Printer)
}

/// As a rule file in every call that reads one, and as a pair file.
fn as_every_file(bytes: &[u8]) -> Vec<Case> {
    let small = expression_file::write(&[Event(b'a'), Not(0), Silent]);
    let mut cases = as_rule_file(bytes);
    cases.push(Case::proposal(&small, bytes));
    cases
}

fn as_rule_file(file: &[u8]) -> Vec<Case> {
    // Opened on an empty desk, and on one where a rule is open.
    let mut calls = vec![Call::Open(file.to_vec()), Call::Step(b'o')];
    calls.extend([Call::Open(swap_file()), Call::Step(b'o')]);
    calls.push(Call::Open(file.to_vec()));
    calls.extend(steps(b"oac"));
    vec![
        Case::run(file, b"oac", 24, 1),
        Case::Desk(calls),
        Case::proposal(file, &three_pairs()),
        Case::printer(file, b"oacw"),
    ]
}

fn three_pairs() -> Vec<u8> {
    let pairs = [(8, 8), (0, 1), (7, 8)].map(|(left, right)| Pair { left, right });
    pair_file::write(&pairs)
}

/// The swap file, three pairs beside it and an input's length, cut and changed at every byte.
fn changed_files() -> impl Iterator<Item = Case> {
    let input = printer_input(58, &swap_file(), b"oac");
    let beside_swap = |pairs: Vec<u8>| Case::proposal(&swap_file(), &pairs);
    (cut_and_changed(swap_file()).flat_map(|file| as_rule_file(&file)))
        .chain(cut_and_changed(three_pairs()).map(beside_swap))
        .chain(cut_at_every_byte(&input).into_iter().map(Case::Printer))
        .chain(changed(input, 2).map(Case::Printer))
}

/// The true proposals of P5 and P10, cut and changed at every byte.
fn changed_proposals() -> impl Iterator<Item = Case> {
    let either_way = vec![Event(b'a'), Event(b'b'), Either(0, 1), Either(1, 0), Silent];
    let unrolled = vec![Event(b'a'), Repeat(0), Then(0, 1), Then(0, 2)];
    let one_pair = vec![Pair { left: 2, right: 3 }];
    let two_pairs = vec![Pair { left: 2, right: 3 }, Pair { left: 1, right: 2 }];
    [(either_way, one_pair), (unrolled, two_pairs)]
        .into_iter()
        .flat_map(|(records, pairs)| {
            let (records, pairs) = (expression_file::write(&records), pair_file::write(&pairs));
            let (same_records, same_pairs) = (records.clone(), pairs.clone());
            let beside_pairs = move |file: Vec<u8>| Case::proposal(&file, &same_pairs);
            let beside_records = move |file: Vec<u8>| Case::proposal(&same_records, &file);
            (cut_and_changed(records).map(beside_pairs))
                .chain(cut_and_changed(pairs).map(beside_records))
        })
}

fn cut_and_changed(file: Vec<u8>) -> impl Iterator<Item = Vec<u8>> {
    let length = file.len();
    let cut = cut_at_every_byte(&file);
    cut.into_iter().chain(changed(file, length))
}

/// The file with each of its first bytes replaced by every value.
fn changed(file: Vec<u8>, first: usize) -> impl Iterator<Item = Vec<u8>> {
    let places = (0..first).flat_map(|place| (0..=255).map(move |value| (place, value)));
    places.map(move |(place, value)| with_byte(&file, place, value))
}

/// Every list of one pair and of two over the records of P10 and silent; every pair of two
/// expressions of at most two nodes.
fn small_proposals() -> impl Iterator<Item = Case> {
    let unrolled: [Record; 5] = [Event(b'a'), Repeat(0), Then(0, 1), Then(0, 2), Silent];
    let lists = all_pairs(5).flat_map(|one| {
        let with_another = all_pairs(5).map(move |other| vec![one, other]);
        std::iter::once(vec![one]).chain(with_another)
    });
    let unrolled = expression_file::write(&unrolled);
    let over_unrolled =
        lists.map(move |pairs| Case::proposal(&unrolled, &pair_file::write(&pairs)));
    let mut list = RecordList::new();
    for tree in trees_up_to(2) {
        list.add(&tree);
    }
    let records = list.records();
    let small = expression_file::write(&records);
    let over_small = all_pairs(records.len() as u16)
        .map(move |pair| Case::proposal(&small, &pair_file::write(&[pair])));
    over_unrolled.chain(over_small)
}

fn all_pairs(count: u16) -> impl Iterator<Item = Pair> {
    (0..count).flat_map(move |left| (0..count).map(move |right| Pair { left, right }))
}

const EVENTS: [u8; 2] = [0, 255];
const OTHER_EVENT: u8 = 127;
const NOTICE_SETS: [u16; 3] = [0, 1, 0x8002];
const LARGEST_SIZE: usize = 4;
const LONGEST_FEED: usize = 5;

/// Every rule of at most four nodes over two events, on every feed of at most five events.
fn small_rules() -> impl Iterator<Item = Case> {
    trees_up_to(LARGEST_SIZE).into_iter().flat_map(|tree| {
        let rule_file = file_of(&tree);
        feeds().into_iter().flat_map(move |feed| {
            let whole = Case::run(&rule_file, &feed, 7 * feed.len() + 2, 1);
            // The shorter feeds are the beginnings of the longest.
            let longest = feed.len() == LONGEST_FEED;
            let steps = longest.then(|| Case::desk(&rule_file, &feed));
            std::iter::once(whole).chain(steps)
        })
    })
}

/// Over the two events and one other.
fn feeds() -> Vec<Vec<u8>> {
    let events = [EVENTS[0], EVENTS[1], OTHER_EVENT];
    let mut feeds = vec![vec![]];
    let mut first_of_length = 0;
    for _ in 0..LONGEST_FEED {
        let shorter = first_of_length..feeds.len();
        first_of_length = feeds.len();
        for index in shorter {
            let longer = events.map(|event| [&feeds[index][..], &[event]].concat());
            feeds.extend(longer);
        }
    }
    feeds
}

/// Every expression of at most so many nodes.
pub fn trees_up_to(largest: usize) -> Vec<Tree> {
    let mut by_size: Vec<Vec<Tree>> = vec![vec![]];
    for size in 1..=largest {
        let mut trees = Vec::new();
        if size == 1 {
            trees.push(silent());
            trees.extend(EVENTS.map(event));
        }
        for x in &by_size[size - 1] {
            trees.extend([not(x), repeat(x)]);
            trees.extend(NOTICE_SETS.map(|notices| notify(x, notices)));
        }
        for first in 1..size.saturating_sub(1) {
            for x in &by_size[first] {
                for y in &by_size[size - 1 - first] {
                    trees.extend([either(x, y), then(x, y), try_unless(x, y)]);
                }
            }
        }
        by_size.push(trees);
    }
    by_size.concat()
}
