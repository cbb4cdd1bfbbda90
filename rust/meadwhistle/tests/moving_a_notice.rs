//! The laws of moving a notice, a proposal each: it is accepted, and with the mistake that looks right in the law's place it is refused.
//! And how the bundled proposal, in which the swap rule's notice is moved, is made.

mod expressions;
mod files;

use expressions::Expressions;
use files::pair;
use meadwhistle::{judge, Refusal};

#[test]
fn each_move_is_accepted_and_its_mistake_refused() {
    let mut file = Expressions::default();
    file.silent();
    // the lowest events, so that no other is looked at before the two sides differ
    let (a, b) = (file.event(0), file.event(1));
    let (told_a, told_b) = (file.notify(a, 1), file.notify(b, 1));
    let (then, either, tried) = (file.then(a, b), file.either(a, b), file.try_unless(a, b));
    let repeat = file.repeat(a);
    let told_repeat = file.notify(repeat, 1);

    // the two sides of a law, and the mistake in place of the second
    let laws = [
        (file.notify(told_a, 2), file.notify(a, 3), file.notify(a, 2)),
        (a, file.notify(a, 0), told_a),
        (
            file.notify(then, 1),
            file.then(a, told_b),
            file.then(told_a, b),
        ),
        (
            file.notify(either, 1),
            file.either(told_a, told_b),
            file.either(told_a, b),
        ),
        (
            file.notify(tried, 1),
            file.try_unless(told_a, b),
            file.try_unless(told_a, told_b),
        ),
        (told_repeat, repeat, file.repeat(told_a)),
    ];
    // what a repeat becomes at an event that isn't its body's; at its body's event that is a repeat again
    let under_way = file.then(a, repeat);
    let becomes = [
        pair(file.notify(under_way, 1), under_way),
        pair(told_repeat, repeat),
    ]
    .concat();

    for (law, (rule, moved, mistake)) in laws.into_iter().enumerate() {
        let proposal = [pair(rule, moved), becomes.clone()].concat();
        assert!(judge(&file.bytes, &proposal).is_ok(), "law {law}");
        let proposal = [pair(rule, mistake), becomes.clone()].concat();
        let refusal = judge(&file.bytes, &proposal).err().map(Refusal::from);
        assert_eq!(refusal, Some(Refusal::NoticesDiffer), "law {law}");
    }
}

/// `repeat (o then try x unless w)`: the try, what is repeated, and the whole.
fn swap(file: &mut Expressions, o: u8, x: u8, w: u8) -> (u8, u8, u8) {
    let tried = file.try_unless(x, w);
    let round = file.then(o, tried);
    (tried, round, file.repeat(round))
}

#[test]
fn the_bundled_proposal_is_the_swap_rule_in_its_two_forms() {
    let mut file = Expressions::default();
    let [o, a, c, w] = [b'o', b'a', b'c', b'w'].map(|event| file.event(event));
    let both = file.then(a, c);
    let told = file.notify(both, 3);
    let (tried, round, rule) = swap(&mut file, o, told, w);
    assert_eq!(file.bytes, include_bytes!("../../../examples/swap.rule"));

    let told_c = file.notify(c, 3);
    let moved = file.then(a, told_c);
    let (moved_tried, moved_round, moved_rule) = swap(&mut file, o, moved, w);
    let mut pairs = pair(rule, moved_rule);
    // before the offer, after it, and after the acceptance, where only what is repeated still differs
    for (now, moved_now) in [(round, moved_round), (tried, moved_tried)] {
        pairs.extend(pair(file.then(now, rule), file.then(moved_now, moved_rule)));
    }
    let accepted = file.try_unless(told_c, w);
    pairs.extend(pair(
        file.then(accepted, rule),
        file.then(accepted, moved_rule),
    ));
    file.silent();
    assert_eq!(
        file.bytes,
        include_bytes!("../../../examples/moved.expressions")
    );
    assert_eq!(pairs, include_bytes!("../../../examples/moved.pairs"));
}
