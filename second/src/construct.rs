//! The eight constructs.

/// One construct over parts of any sort: record numbers in a file, trees in memory.
#[derive(Clone, Copy, Debug, PartialEq, Eq, Hash)]
pub enum Construct<Part> {
    Silent,
    Event(u8),
    Not(Part),
    Either(Part, Part),
    /// x then y
    Then(Part, Part),
    Repeat(Part),
    /// The notice set is sent when x succeeds.
    Notify(Part, u16),
    /// try x unless y
    Try(Part, Part),
}

impl<Part> Construct<Part> {
    /// All parts, first part first.
    pub fn parts(&self) -> Vec<&Part> {
        use Construct::*;
        match self {
            Silent | Event(_) => vec![],
            Not(x) | Repeat(x) | Notify(x, _) => vec![x],
            Either(x, y) | Then(x, y) | Try(x, y) => vec![x, y],
        }
    }

    /// The parts that are offered the event: y of "x then y" has not started yet.
    pub fn parts_at_work(&self) -> Vec<&Part> {
        match self {
            Construct::Then(x, _) => vec![x],
            other => other.parts(),
        }
    }

    /// The same construct with each part exchanged for another.
    pub fn map<Other>(&self, mut exchange: impl FnMut(&Part) -> Other) -> Construct<Other> {
        use Construct::*;
        match self {
            Silent => Silent,
            Event(event) => Event(*event),
            Not(x) => Not(exchange(x)),
            Either(x, y) => Either(exchange(x), exchange(y)),
            Then(x, y) => Then(exchange(x), exchange(y)),
            Repeat(x) => Repeat(exchange(x)),
            Notify(x, notices) => Notify(exchange(x), *notices),
            Try(x, y) => Try(exchange(x), exchange(y)),
        }
    }
}
