//! What is compared with: an engine behind the calls it promises.

use crate::compare::fields::Fields;

/// What a step answers, as the engine says it: any values at all.
#[derive(Clone, Copy, Debug, PartialEq, Eq)]
pub struct Reply {
    pub number: u8,
    pub notices: u16,
    pub status: u8,
    pub lines: u64,
}

pub trait Engine {
    type Desk: Clone;

    /// Writes an answer per event from the place on; gives the number and how many bytes it wrote.
    fn run(&self, rule: &[u8], events: &[u8], answers: &mut [u8], place: usize) -> (u8, usize);

    fn empty_desk(&self) -> Self::Desk;

    /// A desk that holds these values, whether or not calls could have made it so.
    fn desk_holding(&self, fields: &Fields) -> Self::Desk;

    fn open(&self, desk: &mut Self::Desk, rule: &[u8]) -> u8;

    fn step(&self, desk: &mut Self::Desk, event: u8) -> Reply;

    fn fields(&self, desk: &Self::Desk) -> Fields;

    fn judge(&self, expressions: &[u8], pairs: &[u8]) -> u8;

    /// The file (0 expressions, 1 pairs) and the place in it from which on it is shown.
    fn shown(&self, expressions: &[u8], pairs: &[u8]) -> (u8, usize);

    /// Writes the text to the front of the output where it fits; gives its length in any case.
    fn print(&self, input: &[u8], output: &mut [u8]) -> usize;
}
