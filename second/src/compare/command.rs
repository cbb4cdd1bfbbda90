//! The subcommands `compare` and `compare-random`.

use std::env;

use crate::compare::difference::Difference;
use crate::compare::foreign::Meadwhistle;
use crate::compare::program::Program;
use crate::compare::{compare as compare_all, compare_random as compare_random_ones, Counts};

const PRINTER_VARIABLE: &str = "MEADWHISTLE_PRINTER";

pub const USUAL_COUNT: u64 = 25_000;
pub const USUAL_SEED: u64 = 1;

/// Gives the line that ends a comparison without a difference.
pub fn compare(numbers: &[&str]) -> Result<Vec<u8>, String> {
    let (count, seed) = match numbers {
        [] => (USUAL_COUNT, USUAL_SEED),
        [count] => (number(count)?, USUAL_SEED),
        [count, seed] => (number(count)?, number(seed)?),
        _ => return Err("usage: second compare [COUNT [SEED]]\n".to_string()),
    };
    let program = printer_program()?;
    println!("seed {seed}, {count} random cases");
    ended(
        compare_all(&Meadwhistle, program.as_ref(), count as usize, seed),
        seed,
    )
}

pub fn compare_random(numbers: &[&str]) -> Result<Vec<u8>, String> {
    let [count, seed] = numbers else {
        return Err("usage: second compare-random COUNT SEED\n".to_string());
    };
    let (count, seed) = (number(count)?, number(seed)?);
    let program = printer_program()?;
    println!("seed {seed}, {count} random cases alone");
    ended(
        compare_random_ones(&Meadwhistle, program.as_ref(), count as usize, seed),
        seed,
    )
}

/// One that can't be run at all is told of at once.
fn printer_program() -> Result<Option<Program>, String> {
    let Some(path) = env::var_os(PRINTER_VARIABLE) else {
        println!("{PRINTER_VARIABLE} is not set: the printer program is left out");
        return Ok(None);
    };
    let program = Program::new(path, &[]);
    program.printed(&[]).map_err(|error| error + "\n")?;
    Ok(Some(program))
}

fn ended(outcome: Result<Counts, Box<Difference>>, seed: u64) -> Result<Vec<u8>, String> {
    let counts = outcome.map_err(|difference| difference.to_string())?;
    let line = format!(
        "no difference in {} cases: run {}, desk {}, found desk {}, proposal {}, print {}, printer program {}; seed {seed}\n",
        counts.total(),
        counts.run,
        counts.desk,
        counts.found_desk,
        counts.proposal,
        counts.print,
        counts.program,
    );
    Ok(line.into_bytes())
}

fn number(text: &str) -> Result<u64, String> {
    text.parse()
        .map_err(|_| format!("{text} is not a number that a count or a seed can be\n"))
}
