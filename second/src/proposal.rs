//! Judging a proposal: does a list of pairs show that two rules behave alike?

use std::collections::{HashMap, HashSet};

use crate::expression_file::{self, Record};
use crate::figures::Reactor;
use crate::number::Number;
use crate::pair_file::{self, Pair, PAIR_LENGTH};
use crate::status::Status;
use crate::tree::{Known, Tree};

/// Which of the two files a verdict shows.
#[derive(Clone, Copy, Debug, PartialEq, Eq)]
#[repr(u8)]
pub enum ShownFile {
    Expressions = 0,
    Pairs = 1,
}

#[derive(Clone, Copy, Debug, PartialEq, Eq)]
pub struct Verdict {
    pub number: Number,
    /// The shown part is the tail of this file ...
    pub file: ShownFile,
    /// ... from this byte on.
    pub place: usize,
}

impl Verdict {
    fn new(number: Number, file: ShownFile, place: usize) -> Verdict {
        Verdict {
            number,
            file,
            place,
        }
    }

    /// The shown part itself, given the two files that were judged.
    pub fn shown<'a>(&self, expression_file: &'a [u8], pair_file: &'a [u8]) -> &'a [u8] {
        match self.file {
            ShownFile::Expressions => &expression_file[self.place..],
            ShownFile::Pairs => &pair_file[self.place..],
        }
    }
}

pub fn judge(expression_file: &[u8], pair_file: &[u8]) -> Verdict {
    let expressions = expression_file::read(expression_file);
    if !expressions.number.is_accepted() {
        return Verdict::new(
            expressions.number,
            ShownFile::Expressions,
            expressions.place,
        );
    }
    let pairs = pair_file::read(pair_file, expressions.count());
    if !pairs.number.is_accepted() {
        return Verdict::new(pairs.number, ShownFile::Pairs, pairs.place);
    }
    let listed: HashSet<Pair> = pairs.records.iter().copied().collect();
    let mut answers = Answers::of(&expressions.records);
    for (index, pair) in pairs.records.iter().enumerate() {
        for event in 0..=255 {
            let number = compare(*pair, answers.on(event), &listed);
            if !number.is_accepted() {
                return Verdict::new(number, ShownFile::Pairs, index * PAIR_LENGTH);
            }
        }
    }
    Verdict::new(Number::Accepted, ShownFile::Pairs, pairs.place)
}

/// The closing conditions of one pair on one event.
fn compare(pair: Pair, answers: &[Answer], listed: &HashSet<Pair>) -> Number {
    let left = &answers[usize::from(pair.left)];
    let right = &answers[usize::from(pair.right)];
    if left.notices != right.notices {
        return Number::NoticesDiffer;
    }
    if left.status != right.status {
        return Number::StatusesDiffer;
    }
    let (Some(left), Some(right)) = (left.remainder, right.remainder) else {
        return Number::RemainderNotInFile;
    };
    if left == right || listed.contains(&Pair { left, right }) {
        Number::Accepted
    } else {
        Number::RemaindersNotListed
    }
}

/// What one record answers to one event.
struct Answer {
    notices: u16,
    status: Status,
    /// The remainder's record number, if it is in the file.
    remainder: Option<u16>,
}

/// The answers of all records of a file, worked out when an event is first asked for.
struct Answers {
    trees: Vec<Tree>,
    numbers: HashMap<Record, u16>,
    by_event: HashMap<u8, Vec<Answer>>,
}

impl Answers {
    fn of(records: &[Record]) -> Answers {
        Answers {
            trees: expression_file::trees(records),
            numbers: records.iter().copied().zip(0..).collect(),
            by_event: HashMap::new(),
        }
    }

    fn on(&mut self, event: u8) -> &[Answer] {
        let Answers {
            trees,
            numbers,
            by_event,
        } = self;
        by_event
            .entry(event)
            .or_insert_with(|| answer_all(trees, numbers, event))
    }
}

/// From the first record on, so that the parts of each are already known when it is reached.
fn answer_all(trees: &[Tree], numbers: &HashMap<Record, u16>, event: u8) -> Vec<Answer> {
    let mut reactor = Reactor::on(event);
    let mut search = Search::among(trees, numbers);
    let mut answers = Vec::new();
    for tree in trees {
        let reaction = reactor.react(tree);
        answers.push(Answer {
            notices: reaction.notices,
            status: reaction.status,
            remainder: search.number_of(&reaction.remainder),
        });
    }
    answers
}

/// Finds the record number of a tree that may or may not be in the file.
///
/// No two records are equal, so a tree is in the file exactly when its parts are, and the
/// construct over their numbers is a record.
struct Search<'a> {
    numbers: &'a HashMap<Record, u16>,
    known: Known<Option<u16>>,
}

impl<'a> Search<'a> {
    fn among(trees: &[Tree], numbers: &'a HashMap<Record, u16>) -> Search<'a> {
        let mut known = Known::nothing();
        for (number, tree) in (0..).zip(trees) {
            known.note(tree, Some(number));
        }
        Search { numbers, known }
    }

    fn number_of(&mut self, tree: &Tree) -> Option<u16> {
        if let Some(number) = self.known.get(tree) {
            return number;
        }
        let parts = tree.construct().map(|part| self.number_of(part));
        let number = if parts.parts().iter().all(|part| part.is_some()) {
            let record: Record = parts.map(|part| part.unwrap_or_default());
            self.numbers.get(&record).copied()
        } else {
            None
        };
        self.known.note(tree, number);
        number
    }
}
