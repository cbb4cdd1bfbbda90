//! This implementation in place of an engine, as it is or with a fault.

use std::cell::Cell;

use second::compare::engine::{Engine, Reply};
use second::compare::fields::Fields;
use second::desk::Desk;
use second::{feed, printer, proposal};

/// The faults, and the list of them all.
macro_rules! faults {
    ($($name:ident,)*) => {
        #[derive(Clone, Copy, Debug, PartialEq, Eq)]
        pub enum Fault {
            Nothing,
            $($name,)*
        }

        pub const FAULTS: &[Fault] = &[$(Fault::$name,)*];
    };
}

faults! {
    RefusedRunWrites,
    RefusedRunSaysItWrote,
    RoomBehindIsCleared,
    NineForEight,
    RefusedOpeningClears,
    RefusedOpeningTouches,
    RefusedOpeningSetsItsMark,
    RefusedStepTouches,
    OpeningIsNotFresh,
    OpeningLeavesTheOldActive,
    OnlyOneIsOpen,
    OnlyTheLowHalfIsInPlay,
    FinishedStepTouches,
    FinishedStepLeavesGoing,
    FinishedStepBringsIntoPlay,
    FoundStepTouches,
    FoundStepRefused,
    FoundStepCounts,
    FoundStepMovesOnByItsCount,
    FoundStepTakesManyLines,
    FoundStepAnswersByGoing,
    FoundStepLeavesGoing,
    LinesOffByOne,
    NoticesCut,
    StatusesExchanged,
    TwelveForThirteen,
    PlaceOffByOne,
    AcceptedShowsTheFirstPair,
    EmptyPairsShownAsExpressions,
    PrintedOneByteShort,
    PrintedWhereItDoesNotFit,
    PrintedWithAZeroBehind,
    NoLengthWhereItDoesNotFit,
}

use Fault::*;

/// This implementation behind the calls of an engine, and how often it was stepped.
pub struct Itself {
    fault: Fault,
    stepped: Cell<u8>,
}

/// A desk beside the fields that it shows. Of those, a step changes `active` and `going`.
#[derive(Clone)]
pub struct ShownDesk {
    desk: Desk,
    fields: Fields,
}

impl ShownDesk {
    fn touch(&mut self) {
        let gain = &mut self.fields.gain[63];
        *gain = gain.wrapping_add(1);
    }

    /// Something stays in play.
    fn move_on(&mut self) {
        self.fields.going = self.fields.active;
        self.fields.active = self.fields.active.rotate_left(1);
    }
}

impl Itself {
    pub fn with(fault: Fault) -> Itself {
        Itself {
            fault,
            stepped: Cell::new(0),
        }
    }

    fn step_of_open_desk(&self, desk: &mut ShownDesk, event: u8) -> Reply {
        let finished = match self.fault {
            OnlyTheLowHalfIsInPlay => desk.fields.active as u32 == 0,
            _ => desk.fields.active == 0,
        };
        if finished {
            if self.fault != FinishedStepLeavesGoing {
                desk.fields.going = 0;
            }
            match self.fault {
                FinishedStepTouches => desk.touch(),
                FinishedStepBringsIntoPlay => desk.fields.active = 1,
                _ => {}
            }
            return quiet(0, 1);
        }
        let step = desk.desk.step(event);
        if step.number.value() != 0 {
            return self.step_as_found(desk);
        }
        desk.move_on();
        if step.status.byte() != 0 {
            desk.fields.active = 0;
        }
        Reply {
            number: 0,
            notices: step.notices,
            status: step.status.byte(),
            lines: step.lines,
        }
    }

    /// The desk was found with a rule open that this implementation knows nothing of.
    fn step_as_found(&self, desk: &mut ShownDesk) -> Reply {
        let going = desk.fields.going;
        desk.move_on();
        match self.fault {
            FoundStepTouches => desk.fields.nodes[0] ^= 1,
            FoundStepRefused => return quiet(15, 0),
            FoundStepCounts => return quiet(0, u64::from(self.stepped.get() % 64)),
            FoundStepMovesOnByItsCount => desk.fields.active = u64::from(self.stepped.get()),
            FoundStepTakesManyLines => return quiet(0, 65),
            FoundStepAnswersByGoing => return quiet(0, going % 2),
            FoundStepLeavesGoing => desk.fields.going = going,
            _ => {}
        }
        quiet(0, 1)
    }
}

fn quiet(number: u8, lines: u64) -> Reply {
    Reply {
        number,
        notices: 0,
        status: 0,
        lines,
    }
}

impl Engine for Itself {
    type Desk = ShownDesk;

    fn run(&self, rule: &[u8], events: &[u8], answers: &mut [u8], place: usize) -> (u8, usize) {
        let outcome = feed::run(rule, events, answers, place);
        let (number, written) = (outcome.number.value(), outcome.written);
        match (self.fault, number) {
            (RefusedRunWrites, 9) if place < answers.len() => answers[place] ^= 1,
            (RefusedRunSaysItWrote, 8) => return (number, 7 * events.len()),
            (NineForEight, 8) => return (9, 0),
            (RoomBehindIsCleared, 0) => answers[place + written..].fill(0),
            _ => {}
        }
        (number, written)
    }

    fn empty_desk(&self) -> ShownDesk {
        self.desk_holding(&Fields::from_bytes(&[]))
    }

    fn desk_holding(&self, fields: &Fields) -> ShownDesk {
        ShownDesk {
            desk: Desk::empty(),
            fields: *fields,
        }
    }

    fn open(&self, desk: &mut ShownDesk, rule: &[u8]) -> u8 {
        let mut opened = Desk::empty();
        let number = opened.open(rule).value();
        if number == 0 {
            if self.fault != OpeningIsNotFresh || desk.fields.is_open == 0 {
                desk.desk = opened;
            }
            if self.fault != OpeningLeavesTheOldActive {
                desk.fields.active = 1;
            }
            desk.fields.is_open = 1;
            return 0;
        }
        match self.fault {
            RefusedOpeningClears => *desk = self.empty_desk(),
            RefusedOpeningTouches => desk.touch(),
            RefusedOpeningSetsItsMark => desk.fields.is_open = desk.fields.is_open.min(1),
            _ => {}
        }
        number
    }

    fn step(&self, desk: &mut ShownDesk, event: u8) -> Reply {
        self.stepped.set(self.stepped.get().wrapping_add(1));
        let is_open = match self.fault {
            OnlyOneIsOpen => desk.fields.is_open == 1,
            _ => desk.fields.is_open != 0,
        };
        if !is_open {
            if self.fault == RefusedStepTouches {
                desk.touch();
            }
            return quiet(15, 0);
        }
        let mut reply = self.step_of_open_desk(desk, event);
        match self.fault {
            LinesOffByOne if reply.lines > 20 => reply.lines -= 1,
            NoticesCut => reply.notices &= 0x7fff,
            StatusesExchanged if reply.status != 0 => reply.status = 3 - reply.status,
            _ => {}
        }
        reply
    }

    fn fields(&self, desk: &ShownDesk) -> Fields {
        desk.fields
    }

    fn judge(&self, expressions: &[u8], pairs: &[u8]) -> u8 {
        match proposal::judge(expressions, pairs).number.value() {
            13 if self.fault == TwelveForThirteen => 12,
            number => number,
        }
    }

    fn shown(&self, expressions: &[u8], pairs: &[u8]) -> (u8, usize) {
        let verdict = proposal::judge(expressions, pairs);
        let (file, place) = (verdict.file as u8, verdict.place);
        match (self.fault, verdict.number.value()) {
            (PlaceOffByOne, 10..=13) => (file, place + 1),
            (AcceptedShowsTheFirstPair, 0) => (file, 0),
            (EmptyPairsShownAsExpressions, 1) => (0, place),
            _ => (file, place),
        }
    }

    fn print(&self, input: &[u8], output: &mut [u8]) -> usize {
        let text = printer::printed(input).into_bytes();
        let length = text.len();
        if output.len() < length {
            match self.fault {
                PrintedWhereItDoesNotFit => output.copy_from_slice(&text[..output.len()]),
                NoLengthWhereItDoesNotFit => return 0,
                _ => {}
            }
            return length;
        }
        let short = usize::from(self.fault == PrintedOneByteShort);
        output[..length - short].copy_from_slice(&text[..length - short]);
        if self.fault == PrintedWithAZeroBehind && output.len() > length {
            output[length] = 0;
        }
        length
    }
}
