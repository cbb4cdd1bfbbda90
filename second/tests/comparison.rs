//! The comparison, with this implementation on the other side too: as it is, and with faults.

mod stand_in;

use second::compare::fields::Fields;
use second::compare::program::Program;
use second::compare::{found, mix, small, Comparison, Counts, Input};
use second::examples::swap_file;
use second::hex::hex;
use second::worked::{self, Case};

use stand_in::Fault::{Nothing, RefusedOpeningTouches, RefusedRunSaysItWrote};
use stand_in::{Itself, FAULTS};

fn worked_cases() -> impl Iterator<Item = Input> {
    worked::all().into_iter().map(Input::Case)
}

/// The worked cases and the desks filled with one value are enough.
#[test]
fn an_engine_with_a_fault_differs() {
    let filled = found::filled().map(Input::FoundDesk);
    let inputs: Vec<Input> = filled.chain(worked_cases()).collect();
    for fault in FAULTS {
        let engine = Itself::with(*fault);
        let mut comparison = Comparison::with(&engine, None, 1);
        let found = comparison.check_all(inputs.iter().cloned(), 1);
        let difference = found.expect_err(&format!("{fault:?}"));
        assert_eq!(comparison.counts().total(), difference.earlier);
    }
}

#[test]
fn an_engine_without_a_fault_does_not_differ() {
    let engine = Itself::with(Nothing);
    let mut comparison = Comparison::with(&engine, None, 1);
    let inputs = || {
        worked_cases()
            .chain(found::filled().map(Input::FoundDesk))
            .chain(small::cases().step_by(501).map(Input::Case))
            .chain(mix::inputs(400, 1))
    };
    assert!(comparison.check_all(inputs(), 1).is_ok());
    assert_eq!(comparison.counts().total(), inputs().count());
    assert_eq!(comparison.counts().program, 0);
}

/// The fields that are changed, and nothing else, are told with both their values.
#[test]
fn a_difference_tells_what_was_given() {
    let too_large = second::generate::limits::doubling(7);
    let too_large = second::expression_file::write(&too_large);
    let told = |fault, cases: [Case; 2]| {
        let engine = Itself::with(fault);
        let mut comparison = Comparison::with(&engine, None, 1);
        let found = comparison.check_all(cases.map(Input::Case), 1);
        found.unwrap_err().to_string()
    };

    let sound = Case::run(&swap_file(), b"o", 7, 0);
    let refused = Case::run(&too_large, b"oa", 3, 1);
    let expected = format!(
        "difference after 1 cases, in run: bytes written\nexpected 0\ngot 14\nrule {}\n\
         events 6f61\nroom 3\nplace 1\n",
        hex(&too_large)
    );
    assert_eq!(told(RefusedRunSaysItWrote, [sound, refused]), expected);

    let sound = Case::desk(&swap_file(), b"");
    let refused = Case::desk(&[], b"");
    let (zeros, last) = ("00".repeat(8 * 63), "00".repeat(7));
    let expected = format!(
        "difference after 1 cases, in desk: call 0 of the history (from 0): the desk's field gain \
         is changed by a refused call\nbefore {zeros}00{last}\nafter {zeros}01{last}\nopen \n"
    );
    assert_eq!(told(RefusedOpeningTouches, [sound, refused]), expected);
}

#[test]
fn fields_are_their_bytes() {
    let bytes: Vec<u8> = (0..=255).cycle().take(Fields::LENGTH).collect();
    let fields = Fields::from_bytes(&bytes);
    assert_eq!(fields.to_bytes(), bytes);
    assert_eq!(fields.is_open, 0);
    assert_eq!(fields.root, 0x0807_0605_0403_0201);
    assert_eq!(fields.leaves, 0x100f_0e0d_0c0b_0a09);
    assert_eq!(fields.repeats, 0x1817_1615_1413_1211);
    assert_eq!(fields.active, 0x201f_1e1d_1c1b_1a19);
    assert_eq!(fields.going, 0x2827_2625_2423_2221);
    assert_eq!(fields.nodes[0], 0x2a29);
    assert_eq!(fields.gain[0], 0xb0af_aead_acab_aaa9);
    assert_eq!(fields.gain[63].to_le_bytes(), bytes[Fields::LENGTH - 8..]);
}

#[test]
fn the_printer_program_is_compared_too() {
    let engine = Itself::with(Nothing);
    let cases = || worked_cases().step_by(7);
    let itself = Program::new(env!("CARGO_BIN_EXE_second"), &["print"]);
    let mut comparison = Comparison::with(&engine, Some(&itself), 1);
    assert!(comparison.check_all(cases(), 1).is_ok());
    let Counts { print, program, .. } = comparison.counts();
    assert!(program == print && program > 10);

    let prints_more = Program::new(env!("CARGO_BIN_EXE_second"), &["file-groups"]);
    let mut comparison = Comparison::with(&engine, Some(&prints_more), 1);
    let difference = comparison.check_all(cases(), 1).unwrap_err();
    assert!(difference.what.starts_with("the printer program's output"));

    let missing = Program::new("no such program", &[]);
    let mut comparison = Comparison::with(&engine, Some(&missing), 1);
    let difference = comparison.check_all(cases(), 1).unwrap_err();
    assert!(difference.what.starts_with("can't run the printer program"));
}

/// Long inputs, however seldom the others do.
#[test]
fn every_long_input_goes_to_the_printer_program() {
    let engine = Itself::with(Nothing);
    let itself = Program::new(env!("CARGO_BIN_EXE_second"), &["print"]);
    let mut comparison = Comparison::with(&engine, Some(&itself), 1);
    let cases = [10, 4096, 20, 4095, 8192, 8193].map(|length| Case::Printer(vec![0; length]));
    assert!(comparison.check_all(cases.map(Input::Case), 1000).is_ok());
    let Counts { print, program, .. } = comparison.counts();
    assert_eq!((print, program), (6, 4));
}
