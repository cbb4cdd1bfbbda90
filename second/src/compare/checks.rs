//! One case, given to both. An error says what differs: what this implementation says is expected,
//! what the engine says is got.

use std::fmt::Debug;
use std::ops::Range;

use crate::compare::engine::{Engine, Reply};
use crate::compare::fields::Fields;
use crate::compare::found::FoundDesk;
use crate::compare::program::Program;
use crate::desk::{Desk, StepOutcome};
use crate::feed;
use crate::hex::hex;
use crate::number::Number;
use crate::printer;
use crate::proposal;
use crate::random::Random;
use crate::status::Status;
use crate::worked::Call;

pub fn run<E: Engine>(
    engine: &E,
    pattern: &mut Random,
    rule_file: &[u8],
    events: &[u8],
    room: usize,
    place: usize,
) -> Result<(), String> {
    let before = Framed::filled(pattern, room);
    let (mut expected, mut got) = (before.clone(), before.clone());
    let outcome = feed::run(rule_file, events, expected.buffer(), place);
    let (number, written) = engine.run(rule_file, events, got.buffer(), place);
    same("number", outcome.number.value(), number)?;
    same("bytes written", outcome.written, written)?;
    before.same_after("the answer buffer", &expected, &got)
}

pub fn desk<E: Engine>(engine: &E, calls: &[Call]) -> Result<(), String> {
    let mut of_second = Desk::empty();
    let mut of_engine = engine.empty_desk();
    for (index, call) in calls.iter().enumerate() {
        same_call(engine, &mut of_second, &mut of_engine, call)
            .map_err(|what| in_history(index, &what))?;
    }
    Ok(())
}

/// What the desk was found with plays no part any more once a rule has been opened on it.
pub fn found_desk<E: Engine>(engine: &E, found: &FoundDesk) -> Result<(), String> {
    let mut of_engine = found.origin.desk(engine);
    let mut opened: Option<Desk> = None;
    for (index, call) in found.calls.iter().enumerate() {
        let outcome = match (&mut opened, call) {
            (Some(of_second), call) => same_call(engine, of_second, &mut of_engine, call),
            (None, Call::Step(event)) => step_as_found(engine, &mut of_engine, *event),
            (None, Call::Open(_)) => {
                let mut of_second = Desk::empty();
                let outcome = same_call(engine, &mut of_second, &mut of_engine, call);
                if outcome == Ok(Number::Accepted) {
                    opened = Some(of_second);
                }
                outcome
            }
        };
        outcome.map_err(|what| in_history(index, &what))?;
    }
    Ok(())
}

fn in_history(index: usize, what: &str) -> String {
    format!("call {index} of the history (from 0): {what}")
}

/// A refused call leaves every field of the desk as it was.
fn same_call<E: Engine>(
    engine: &E,
    of_second: &mut Desk,
    of_engine: &mut E::Desk,
    call: &Call,
) -> Result<Number, String> {
    let before = engine.fields(of_engine);
    let number = match call {
        Call::Open(rule_file) => {
            let number = of_second.open(rule_file);
            same("number", number.value(), engine.open(of_engine, rule_file))?;
            number
        }
        Call::Step(event) => {
            let step = of_second.step(*event);
            same("reply", reply(&step), engine.step(of_engine, *event))?;
            step.number
        }
    };
    if !number.is_accepted() {
        unchanged("a refused call", &before, &engine.fields(of_engine))?;
    }
    Ok(number)
}

fn reply(step: &StepOutcome) -> Reply {
    Reply {
        number: step.number.value(),
        notices: step.notices,
        status: step.status.byte(),
        lines: step.lines,
    }
}

/// No step uses more, whatever its desk holds.
const MOST_LINES: u64 = 64;

/// A step on a desk that holds any values: what an unfinished rule answers there is left open, but
/// not that it is the same each time, also where `going` is another, nor which fields stay.
fn step_as_found<E: Engine>(engine: &E, desk: &mut E::Desk, event: u8) -> Result<Number, String> {
    let before = engine.fields(desk);
    let copy = desk.clone();
    let got = engine.step(desk, event);
    let after = engine.fields(desk);
    let quiet = |number: Number, lines| Reply {
        number: number.value(),
        notices: 0,
        status: Status::Waiting.byte(),
        lines,
    };
    if before.is_open == 0 {
        same("reply", quiet(Number::NoRuleOpen, 0), got)?;
        unchanged("a refused step", &before, &after)?;
        return Ok(Number::NoRuleOpen);
    }
    if before.active == 0 {
        same("reply", quiet(Number::Accepted, 1), got)?;
        same("going, of a finished rule", 0, after.going)?;
        let going = before.going;
        let others = Fields { going, ..after };
        unchanged("a step of a finished rule", &before, &others)?;
        return Ok(Number::Accepted);
    }
    same("number", Number::Accepted.value(), got.number)?;
    same("lines, at most", got.lines.min(MOST_LINES), got.lines)?;
    let Fields { active, going, .. } = before;
    let others = Fields {
        active,
        going,
        ..after
    };
    unchanged("a step", &before, &others)?;
    let going = !going;
    let otherwise = engine.desk_holding(&Fields { going, ..before });
    for (name, mut desk) in [("a copy", copy), ("a copy with another going", otherwise)] {
        let again = engine.step(&mut desk, event);
        same(&format!("reply, on {name}"), got, again)?;
        let by = format!("the same step on {name}");
        unchanged(&by, &after, &engine.fields(&desk))?;
    }
    Ok(Number::Accepted)
}

pub fn proposal<E: Engine>(
    engine: &E,
    expression_file: &[u8],
    pair_file: &[u8],
) -> Result<(), String> {
    let verdict = proposal::judge(expression_file, pair_file);
    let number = engine.judge(expression_file, pair_file);
    same("number", verdict.number.value(), number)?;
    let (file, place) = engine.shown(expression_file, pair_file);
    same("shown file", verdict.file as u8, file)?;
    same("shown place", verdict.place, place)
}

/// With room for exactly the text, a byte less, and some bytes more.
pub fn print<E: Engine>(engine: &E, pattern: &mut Random, input: &[u8]) -> Result<(), String> {
    let text = printer::printed(input).into_bytes();
    let ample = text.len() + pattern.between(1, 40);
    for room in [text.len(), text.len() - 1, ample] {
        let before = Framed::filled(pattern, room);
        let (mut expected, mut got) = (before.clone(), before.clone());
        if let Some(front) = expected.buffer().get_mut(..text.len()) {
            front.copy_from_slice(&text);
        }
        let length = engine.print(input, got.buffer());
        same("length of the text", text.len(), length)?;
        before.same_after("the output buffer", &expected, &got)?;
    }
    Ok(())
}

pub fn program(program: &Program, input: &[u8]) -> Result<(), String> {
    let got = program.printed(input)?;
    let expected = printer::printed(input).into_bytes();
    same_bytes("the printer program's output", &expected, &got)
}

/// A buffer between margins, all filled at random: what is written past either end shows as well.
#[derive(Clone)]
struct Framed {
    bytes: Vec<u8>,
    buffer: Range<usize>,
}

const MARGIN: usize = 16;

impl Framed {
    fn filled(pattern: &mut Random, room: usize) -> Framed {
        Framed {
            bytes: pattern.bytes(MARGIN + room + MARGIN),
            buffer: MARGIN..MARGIN + room,
        }
    }

    fn buffer(&mut self) -> &mut [u8] {
        &mut self.bytes[self.buffer.clone()]
    }

    fn same_after(&self, what: &str, expected: &Framed, got: &Framed) -> Result<(), String> {
        let what = format!("{what} (between margins of {MARGIN} bytes)");
        same_bytes(&what, &expected.bytes, &got.bytes)
            .map_err(|difference| format!("{difference}\nbefore the call {}", hex(&self.bytes)))
    }
}

fn same<Value: PartialEq + Debug>(what: &str, expected: Value, got: Value) -> Result<(), String> {
    if expected == got {
        Ok(())
    } else {
        Err(format!("{what}\nexpected {expected:?}\ngot {got:?}"))
    }
}

fn same_bytes(what: &str, expected: &[u8], got: &[u8]) -> Result<(), String> {
    if expected == got {
        return Ok(());
    }
    let pairs = expected.iter().zip(got);
    let alike = pairs.take_while(|(one, other)| one == other).count();
    let (expected, got) = (hex(expected), hex(got));
    Err(format!(
        "{what}, from byte {alike} on\nexpected {expected}\ngot {got}"
    ))
}

/// Tells the first field that has changed.
fn unchanged(by: &str, before: &Fields, after: &Fields) -> Result<(), String> {
    for ((name, before), (_, after)) in before.by_name().into_iter().zip(after.by_name()) {
        if before != after {
            let (before, after) = (hex(&before), hex(&after));
            return Err(format!(
                "the desk's field {name} is changed by {by}\nbefore {before}\nafter {after}"
            ));
        }
    }
    Ok(())
}
