//! Proposals that are true: the paper's eight equations inside random contexts.

use crate::generate::closing::{closed, Proposal};
use crate::generate::trees::{random_alphabet, random_notices, tree_of_size};
use crate::pair_file::{Pair, MOST_PAIRS};
use crate::random::Random;
use crate::tree::build::{either, event, not, notify, repeat, then, try_unless};
use crate::tree::Tree;

pub const EQUATIONS: usize = 8;

/// Both sides of an equation of section 6, in the order they are displayed there, row by row.
pub fn sides(equation: usize, x: &Tree, y: &Tree, z: &Tree) -> (Tree, Tree) {
    match equation {
        0 => (either(x, y), either(y, x)),
        1 => (then(x, &then(y, z)), then(&then(x, y), z)),
        2 => (either(x, &either(y, z)), either(&either(x, y), z)),
        3 => (not(&then(x, y)), either(&not(x), &then(x, &not(y)))),
        4 => (either(x, x), x.clone()),
        5 => (
            then(x, &try_unless(y, z)),
            try_unless(&then(x, y), &then(x, z)),
        ),
        6 => (not(&not(x)), x.clone()),
        _ => (repeat(x), then(x, &repeat(x))),
    }
}

/// A true proposal, with the number of the equation it comes from.
pub fn true_proposal(random: &mut Random) -> (usize, Proposal) {
    loop {
        let equation = random.below(EQUATIONS);
        if let Some(proposal) = proposal_from(random, equation) {
            return (equation, proposal);
        }
    }
}

/// A random instance of an equation in a random context, unless it is too large for the files.
pub fn proposal_from(random: &mut Random, equation: usize) -> Option<Proposal> {
    let alphabet = random_alphabet(random);
    let mut part = || {
        let size = random.between(1, 8);
        tree_of_size(random, &alphabet, size)
    };
    let (x, y, z) = (part(), part(), part());
    let (mut left, mut right) = sides(equation, &x, &y, &z);
    if random.once_in(2) {
        (left, right) = (right, left);
    }
    for _ in 0..random.below(6) {
        (left, right) = in_context(random, &alphabet, &left, &right);
    }
    let mut proposal = closed(&left, &right)?;
    rearrange(random, &mut proposal);
    Some(proposal)
}

/// The first equation between two chains of events, all different: a pair for every state of both.
///
/// Chains of 16 and 16 events fill the pair file; longer ones don't fit.
pub fn commuting_chains(first_length: u8, second_length: u8) -> Option<Proposal> {
    let chain = |from: u8, length: u8| {
        let last = event(from + length - 1);
        let earlier = (from..from + length - 1).rev();
        earlier.fold(last, |rest, byte| then(&event(byte), &rest))
    };
    let x = chain(0, first_length);
    let y = chain(first_length, second_length);
    let (left, right) = sides(0, &x, &y, &x);
    closed(&left, &right)
}

/// The same random construct around both.
fn in_context(random: &mut Random, alphabet: &[u8], left: &Tree, right: &Tree) -> (Tree, Tree) {
    let size = random.between(1, 4);
    let other = tree_of_size(random, alphabet, size);
    let notices = random_notices(random);
    let construct = random.below(9);
    let around = |hole: &Tree| match construct {
        0 => not(hole),
        1 => repeat(hole),
        2 => notify(hole, notices),
        3 => either(hole, &other),
        4 => either(&other, hole),
        5 => then(hole, &other),
        6 => then(&other, hole),
        7 => try_unless(hole, &other),
        _ => try_unless(&other, hole),
    };
    (around(left), around(right))
}

/// Changes that keep a proposal true: the order of the later pairs, and a pair met again.
fn rearrange(random: &mut Random, proposal: &mut Proposal) {
    random.shuffle(&mut proposal.pairs[1..]);
    if random.once_in(4) && proposal.pairs.len() < MOST_PAIRS {
        let again: Pair = *random.pick(&proposal.pairs);
        let place = random.between(1, proposal.pairs.len());
        proposal.pairs.insert(place, again);
    }
}
