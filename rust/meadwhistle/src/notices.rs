//! Sets of recipients.

use std::fmt;

/// A set of recipients, who are numbered from 0 to 15.
///
/// ```
/// use meadwhistle::Notices;
///
/// let notices = Notices::from_bits(0x0005);
/// assert!(notices.contains(2));
/// assert_eq!(Vec::from_iter(notices), [0, 2]);
/// assert_eq!(format!("{notices:?}"), "{0, 2}");
/// ```
#[derive(Clone, Copy, Default, PartialEq, Eq, Hash)]
pub struct Notices(u16);

impl Notices {
    /// The set whose recipient `n` is bit `n`, the lowest being 0.
    pub const fn from_bits(bits: u16) -> Notices {
        Notices(bits)
    }

    /// The set as a number, recipient 0 the lowest bit.
    pub const fn bits(self) -> u16 {
        self.0
    }

    /// Whether nobody is to be notified.
    pub const fn is_empty(self) -> bool {
        self.0 == 0
    }

    /// Whether this recipient is to be notified.
    pub fn contains(self, recipient: u8) -> bool {
        self.into_iter().any(|other| other == recipient)
    }
}

/// The recipients, ascending.
impl IntoIterator for Notices {
    type Item = u8;
    type IntoIter = Recipients;

    fn into_iter(self) -> Recipients {
        Recipients { left: self.0 }
    }
}

impl fmt::Debug for Notices {
    fn fmt(&self, formatter: &mut fmt::Formatter) -> fmt::Result {
        formatter.debug_set().entries(*self).finish()
    }
}

/// The recipients of a set of [`Notices`], ascending.
#[derive(Clone, Debug)]
pub struct Recipients {
    left: u16,
}

impl Iterator for Recipients {
    type Item = u8;

    fn next(&mut self) -> Option<u8> {
        let lowest = (0..16).find(|recipient| self.left >> recipient & 1 == 1)?;
        self.left &= !(1 << lowest);
        Some(lowest)
    }
}
