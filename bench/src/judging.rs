//! Judging proposals: the engine beside the second program.

use std::hint::black_box;

use crate::proposals::{eithers, nots, typical, Proposal};
use crate::{text, timing};

const ACCEPTED: u8 = 0;
const NOTICES_DIFFER: u8 = 10;

pub fn report() {
    println!("Judging a proposal: the engine's time over the second program's\n");
    text::line("", &["ratio", "engine, ms", "second, ms"]);
    row("typical, accepted", ACCEPTED, &typical());
    row("worst: eithers, accepted", ACCEPTED, &[eithers(false)]);
    row(
        "worst: eithers, refused at last",
        NOTICES_DIFFER,
        &[eithers(true)],
    );
    row("worst: nots, accepted", ACCEPTED, &[nots()]);
}

fn row(label: &str, number: u8, proposals: &[Proposal]) {
    let judges = [by_engine, by_second];
    for judge in judges {
        assert!(proposals.iter().all(|proposal| judge(proposal) == number));
    }
    let least: [f64; 2] = timing::least(|which| {
        for proposal in proposals {
            black_box(judges[which](proposal));
        }
    });
    let [engine, second] = least.map(|time| time / proposals.len() as f64 / 1e6);
    text::figures(&format!("  {label}"), &[engine / second, engine, second]);
}

fn by_engine(proposal: &Proposal) -> u8 {
    let verdict = meadwhistle::judge(&proposal.expressions, &proposal.pairs);
    verdict.map_or_else(|rejection| rejection.refusal().number(), |()| ACCEPTED)
}

fn by_second(proposal: &Proposal) -> u8 {
    let verdict = second::proposal::judge(&proposal.expressions, &proposal.pairs);
    verdict.number.value()
}
