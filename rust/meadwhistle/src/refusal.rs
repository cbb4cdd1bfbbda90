//! Why a call is refused.

use std::error::Error;
use std::fmt;

/// Makes the enum, its numbers and its texts from one table.
macro_rules! refusals {
    ($($number:literal $name:ident $text:literal,)*) => {
        /// Why a call is refused. As text it is the words of the table of refusal numbers, without the remarks in brackets.
        ///
        /// A later engine may give a number that this table doesn't have. That isn't a panic: it is [`Refusal::Unlisted`], which
        /// still has its number. So a `match` on a refusal needs an arm for the rest.
        ///
        /// ```
        /// use meadwhistle::{Desk, Refusal};
        ///
        /// let refusal = Desk::new().open(&[]).unwrap_err();
        /// assert_eq!(refusal, Refusal::EmptyFile);
        /// assert_eq!(refusal.number(), 1);
        /// assert_eq!(refusal.to_string(), "the file is empty");
        /// ```
        #[derive(Clone, Copy, Debug, PartialEq, Eq, Hash)]
        #[non_exhaustive]
        pub enum Refusal {
            $(#[doc = concat!("Number ", $number, ": ", $text, ".")] $name,)*
            /// A number that isn't in the table above.
            Unlisted(Unlisted),
        }

        impl Refusal {
            /// The refusal with this number; none for 0, which stands for accepted.
            ///
            /// ```
            /// use meadwhistle::Refusal;
            ///
            /// assert_eq!(Refusal::from_number(15), Some(Refusal::NoRuleOpen));
            /// assert_eq!(Refusal::from_number(0), None);
            ///
            /// let later = Refusal::from_number(200).unwrap();
            /// assert!(matches!(later, Refusal::Unlisted(_)));
            /// assert_eq!(later.number(), 200);
            /// ```
            pub fn from_number(number: u8) -> Option<Refusal> {
                match number {
                    0 => None,
                    $($number => Some(Refusal::$name),)*
                    _ => Some(Refusal::Unlisted(Unlisted(number))),
                }
            }

            /// The number in the table, never 0.
            pub fn number(self) -> u8 {
                match self {
                    $(Refusal::$name => $number,)*
                    Refusal::Unlisted(Unlisted(number)) => number,
                }
            }
        }

        impl fmt::Display for Refusal {
            fn fmt(&self, formatter: &mut fmt::Formatter) -> fmt::Result {
                match self {
                    $(Refusal::$name => formatter.pad($text),)*
                    Refusal::Unlisted(Unlisted(number)) => {
                        write!(formatter, "refusal {number}, for which there is no text here")
                    }
                }
            }
        }
    };
}

refusals! {
    1 EmptyFile "the file is empty",
    2 CutShort "fewer than 4 bytes are left, or fewer than the length",
    3 UnknownKind "kind not in this file's list",
    4 WrongLength "length isn't that kind's",
    5 NotAnEarlierRecord "x or y isn't an earlier record",
    6 SameAsEarlierRecord "same kind and body as an earlier record",
    7 TooManyRecords "a record follows the 1,024th, or a pair the 256th",
    8 RuleTooLarge "the rule's size is above 64",
    9 NoRoom "the place is past the answer buffer's end, or the room is too small",
    10 NoticesDiffer "notices differ",
    11 StatusesDiffer "statuses differ",
    12 RemainderNotInFile "a remainder isn't in the file",
    13 RemaindersNotListed "the remainders are neither one record nor listed",
    14 PairNamesNoRecord "a pair names a record that isn't there",
    15 NoRuleOpen "a step on a desk with no rule open",
    // 16 was a number once, and isn't used again.
    17 InputTooLong "program input above 8,192 bytes",
}

/// A number that [`Refusal`] has no name for. Only [`Refusal::from_number`] makes one, so no number has two forms.
#[derive(Clone, Copy, Debug, PartialEq, Eq, Hash)]
pub struct Unlisted(u8);

impl Error for Refusal {}

/// What a number says of a call that gives nothing else.
pub(crate) fn accepted(number: u8) -> Result<(), Refusal> {
    Refusal::from_number(number).map_or(Ok(()), Err)
}
