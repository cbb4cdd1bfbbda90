//! Says whether a proposal is accepted, and if not why and where: `judge EXPRESSIONS PAIRS`.

use std::error::Error;
use std::fs;

use meadwhistle::{judge, Shown};

fn main() -> Result<(), Box<dyn Error>> {
    let mut paths = std::env::args_os().skip(1);
    let (Some(expressions), Some(pairs)) = (paths.next(), paths.next()) else {
        return Err("usage: judge EXPRESSIONS PAIRS".into());
    };
    let (expressions, pairs) = (fs::read(expressions)?, fs::read(pairs)?);
    match judge(&expressions, &pairs) {
        Ok(()) => println!("accepted"),
        Err(rejection) => {
            let number = rejection.refusal().number();
            let (file, place) = match rejection.shown() {
                Shown::Expressions(tail) => ("expression", expressions.len() - tail.len()),
                Shown::Pairs(tail) => ("pair", pairs.len() - tail.len()),
            };
            println!("refused {number}: {rejection}, at byte {place} of the {file} file");
        }
    }
    Ok(())
}
