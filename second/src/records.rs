//! Reading a file of records: what the expression file and the pair file have in common.
//!
//! A record is its length (2 bytes, of the whole record), its kind (2 bytes), its body; little-endian.

use crate::number::Number;

pub const HEADER_LENGTH: usize = 4;

/// What came of reading a file.
#[derive(Clone, Debug)]
pub struct Reading<Record> {
    pub number: Number,
    /// First byte of the record at fault; the file's length if there is none.
    pub place: usize,
    /// The records before the fault; all of them if there is none.
    pub records: Vec<Record>,
}

impl<Record> Reading<Record> {
    pub fn count(&self) -> usize {
        self.records.len()
    }
}

/// How one of the two files differs from the other.
pub trait Layout {
    type Record;

    /// The most records a file may have.
    fn limit(&self) -> usize;

    /// The length of a record of this kind, if the kind is in this file's list.
    fn length_of(&self, kind: u16) -> Option<usize>;

    /// The tests that need the body. The body has the length that belongs to the kind.
    fn take(
        &self,
        kind: u16,
        body: &[u8],
        earlier: &[Self::Record],
    ) -> Result<Self::Record, Number>;
}

/// Reads from the front; the first record at fault decides.
pub fn read<L: Layout>(layout: &L, file: &[u8]) -> Reading<L::Record> {
    let mut records = Vec::new();
    let mut place = 0;
    while place < file.len() {
        match read_one(layout, &file[place..], &records) {
            Ok((record, length)) => {
                records.push(record);
                place += length;
            }
            Err(number) => {
                return Reading {
                    number,
                    place,
                    records,
                }
            }
        }
    }
    let number = if records.is_empty() {
        Number::EmptyFile
    } else {
        Number::Accepted
    };
    Reading {
        number,
        place,
        records,
    }
}

/// The record at the front of `rest`, which isn't empty, and its length.
fn read_one<L: Layout>(
    layout: &L,
    rest: &[u8],
    earlier: &[L::Record],
) -> Result<(L::Record, usize), Number> {
    if earlier.len() >= layout.limit() {
        return Err(Number::TooManyRecords);
    }
    if rest.len() < HEADER_LENGTH {
        return Err(Number::CutShort);
    }
    let length = usize::from(two_bytes(rest, 0));
    let kind = two_bytes(rest, 2);
    let length_of_kind = layout.length_of(kind).ok_or(Number::UnknownKind)?;
    if length != length_of_kind {
        return Err(Number::WrongLength);
    }
    if rest.len() < length {
        return Err(Number::CutShort);
    }
    let record = layout.take(kind, &rest[HEADER_LENGTH..length], earlier)?;
    Ok((record, length))
}

/// The little-endian number at a place.
pub fn two_bytes(bytes: &[u8], place: usize) -> u16 {
    u16::from_le_bytes([bytes[place], bytes[place + 1]])
}

/// A record of any length, kind and body, sound or not.
pub fn raw_record(length: u16, kind: u16, body: &[u8]) -> Vec<u8> {
    let mut bytes = Vec::new();
    bytes.extend(length.to_le_bytes());
    bytes.extend(kind.to_le_bytes());
    bytes.extend(body);
    bytes
}

/// A record whose length is that of its bytes.
pub fn record(kind: u16, body: &[u8]) -> Vec<u8> {
    raw_record((HEADER_LENGTH + body.len()) as u16, kind, body)
}

/// A body of two-byte numbers.
pub fn body_of(numbers: &[u16]) -> Vec<u8> {
    numbers
        .iter()
        .flat_map(|number| number.to_le_bytes())
        .collect()
}
