//! The subcommands. Input is standard input, output standard output.

use std::io::{self, Read, Write};
use std::process::ExitCode;

use second::cases;
use second::printer;
use second::worked::{self, answers, sequence};

const USAGE: &str = "usage: second COMMAND

file-cases      write the sequence of file cases
file-groups     list the groups of file cases and how many cases each has
file-answers    read such a sequence and print the answers to its cases
worked-cases    write the sequence of worked cases
worked-groups   list the groups of worked cases and how many cases each has
worked-answers  read such a sequence and print the answers to its cases
print           read a printer input and print what the printer prints

compare [COUNT [SEED]]
                compare with the engine that is linked in by the feature `compare`
compare-random COUNT SEED
                the same on the random cases alone
";

fn main() -> ExitCode {
    let arguments: Vec<String> = std::env::args().skip(1).collect();
    let output = match arguments.iter().map(String::as_str).collect::<Vec<_>>()[..] {
        ["file-cases"] => Ok(cases::write_sequence(&cases::groups())),
        ["file-groups"] => Ok(file_groups()),
        ["file-answers"] => file_answers(),
        ["worked-cases"] => Ok(sequence::write(&worked::stored())),
        ["worked-groups"] => Ok(worked_groups()),
        ["worked-answers"] => worked_answers(),
        ["print"] => whole_input().map(|input| printer::printed(&input).into_bytes()),
        ["compare", ref numbers @ ..] => compare::compare(numbers),
        ["compare-random", ref numbers @ ..] => compare::compare_random(numbers),
        _ => Err(USAGE.to_string()),
    };
    let written = output.and_then(|bytes| {
        let mut stdout = io::stdout().lock();
        stdout
            .write_all(&bytes)
            .and_then(|()| stdout.flush())
            .map_err(|error| format!("can't write: {error}\n"))
    });
    match written {
        Ok(()) => ExitCode::SUCCESS,
        Err(message) => {
            eprint!("{message}");
            ExitCode::FAILURE
        }
    }
}

fn whole_input() -> Result<Vec<u8>, String> {
    let mut input = Vec::new();
    io::stdin()
        .lock()
        .read_to_end(&mut input)
        .map_err(|error| format!("can't read: {error}\n"))?;
    Ok(input)
}

fn file_groups() -> Vec<u8> {
    let groups = cases::groups();
    listed(groups.iter().map(|group| (group.name, group.cases.len())))
}

fn worked_groups() -> Vec<u8> {
    let groups = worked::groups();
    listed(groups.iter().map(|group| (group.name, group.cases.len())))
}

fn listed<'a>(groups: impl Iterator<Item = (&'a str, usize)>) -> Vec<u8> {
    let mut text = String::new();
    let mut total = 0;
    for (name, count) in groups {
        text.push_str(&format!("{count:4} {name}\n"));
        total += count;
    }
    text.push_str(&format!("{total:4} in all\n"));
    text.into_bytes()
}

fn file_answers() -> Result<Vec<u8>, String> {
    let cases = cases::read_sequence(&whole_input()?)
        .ok_or("the sequence ends in the middle of a case\n")?;
    Ok(cases::answers(&cases).into_bytes())
}

fn worked_answers() -> Result<Vec<u8>, String> {
    let cases =
        sequence::read(&whole_input()?).ok_or("the input isn't a sequence of worked cases\n")?;
    Ok(answers::answers(&cases).into_bytes())
}

#[cfg(feature = "compare")]
use second::compare::command as compare;

#[cfg(not(feature = "compare"))]
mod compare {
    const NOTHING_LINKED: &str =
        "this program was built without the feature `compare`: no engine is linked in\n";

    pub fn compare(_: &[&str]) -> Result<Vec<u8>, String> {
        Err(NOTHING_LINKED.to_string())
    }

    pub fn compare_random(_: &[&str]) -> Result<Vec<u8>, String> {
        Err(NOTHING_LINKED.to_string())
    }
}
