//! Comparing with another engine: everything that comes back must be the same.
//!
//! * [`engine`]: what is compared with; [`fields`]: its desk; [`program`]: the printer program;
//! * [`checks`]: one case; [`difference`]: what is told where the two differ;
//! * [`small`]: all small cases; [`mix`]: random cases, most of them cheap; [`large`]: the others;
//! * [`found`]: desks that hold any values;
//! * `foreign`: the engine behind the C header, and `command`: the subcommand. These two need the
//!   feature `compare`.

use crate::compare::difference::Difference;
use crate::compare::engine::Engine;
use crate::compare::found::FoundDesk;
use crate::compare::program::{Program, LONG_INPUT};
use crate::random::Random;
use crate::worked::{self, Case};

pub mod checks;
#[cfg(feature = "compare")]
pub mod command;
pub mod difference;
pub mod engine;
pub mod fields;
#[cfg(feature = "compare")]
pub mod foreign;
pub mod found;
pub mod large;
pub mod mix;
pub mod program;
pub mod small;

/// What both are given: a case whose answer is settled, or a desk that holds any values.
#[derive(Clone, Debug, PartialEq, Eq)]
pub enum Input {
    Case(Case),
    FoundDesk(FoundDesk),
}

/// How many cases of each kind were compared without a difference.
#[derive(Clone, Copy, Debug, Default, PartialEq, Eq)]
pub struct Counts {
    pub run: usize,
    pub desk: usize,
    pub found_desk: usize,
    pub proposal: usize,
    pub print: usize,
    /// Those of the printer cases that the printer program was given too.
    pub program: usize,
}

impl Counts {
    /// All cases; the printer program is given no others.
    pub fn total(&self) -> usize {
        self.run + self.desk + self.found_desk + self.proposal + self.print
    }
}

/// How many printer cases of a sort there are to one that the printer program is given too, beside
/// every long one.
///
/// Starting a program takes much longer than anything else that is compared.
const PROGRAM_ONCE_IN_SMALL: usize = 64;
const PROGRAM_ONCE_IN_RANDOM: usize = 16;

/// The worked cases, all small ones, and `count` random ones, up to the first difference.
pub fn compare<E: Engine>(
    engine: &E,
    program: Option<&Program>,
    count: usize,
    seed: u64,
) -> Result<Counts, Box<Difference>> {
    let mut comparison = Comparison::with(engine, program, seed);
    comparison.check_all(worked::all().into_iter().map(Input::Case), 1)?;
    comparison.check_all(found::filled().map(Input::FoundDesk), 1)?;
    comparison.check_all(small::printer_inputs().map(Input::Case), 1)?;
    comparison.check_all(small::cases().map(Input::Case), PROGRAM_ONCE_IN_SMALL)?;
    comparison.check_all(mix::inputs(count, seed), PROGRAM_ONCE_IN_RANDOM)?;
    Ok(comparison.counts())
}

/// The random cases alone, up to the first difference.
pub fn compare_random<E: Engine>(
    engine: &E,
    program: Option<&Program>,
    count: usize,
    seed: u64,
) -> Result<Counts, Box<Difference>> {
    let mut comparison = Comparison::with(engine, program, seed);
    comparison.check_all(mix::inputs(count, seed), PROGRAM_ONCE_IN_RANDOM)?;
    Ok(comparison.counts())
}

/// A comparison under way.
pub struct Comparison<'a, E> {
    engine: &'a E,
    program: Option<&'a Program>,
    /// What buffers are filled with before they are lent.
    pattern: Random,
    counts: Counts,
}

impl<'a, E: Engine> Comparison<'a, E> {
    pub fn with(engine: &'a E, program: Option<&'a Program>, seed: u64) -> Comparison<'a, E> {
        Comparison {
            engine,
            program,
            pattern: Random::seeded(!seed),
            counts: Counts::default(),
        }
    }

    pub fn counts(&self) -> Counts {
        self.counts
    }

    /// Up to the first difference. One printer case in so many goes to the program as well.
    pub fn check_all(
        &mut self,
        inputs: impl IntoIterator<Item = Input>,
        program_once_in: usize,
    ) -> Result<(), Box<Difference>> {
        for input in inputs {
            let checked = match &input {
                Input::Case(case) => self.check(case, program_once_in),
                Input::FoundDesk(found) => self.check_found(found),
            };
            if let Err(what) = checked {
                return Err(Box::new(Difference {
                    earlier: self.counts.total(),
                    what,
                    input,
                }));
            }
        }
        Ok(())
    }

    fn check_found(&mut self, found: &FoundDesk) -> Result<(), String> {
        checks::found_desk(self.engine, found)?;
        self.counts.found_desk += 1;
        Ok(())
    }

    fn check(&mut self, case: &Case, program_once_in: usize) -> Result<(), String> {
        let engine = self.engine;
        let pattern = &mut self.pattern;
        match case {
            Case::Run {
                rule_file,
                events,
                room,
                place,
            } => {
                checks::run(engine, pattern, rule_file, events, *room, *place)?;
                self.counts.run += 1;
            }
            Case::Desk(calls) => {
                checks::desk(engine, calls)?;
                self.counts.desk += 1;
            }
            Case::Proposal {
                expression_file,
                pair_file,
            } => {
                checks::proposal(engine, expression_file, pair_file)?;
                self.counts.proposal += 1;
            }
            Case::Printer(input) => {
                checks::print(engine, pattern, input)?;
                let in_turn = self.counts.print.is_multiple_of(program_once_in);
                if in_turn || input.len() >= LONG_INPUT {
                    if let Some(program) = self.program {
                        checks::program(program, input)?;
                        self.counts.program += 1;
                    }
                }
                self.counts.print += 1;
            }
        }
        Ok(())
    }
}
