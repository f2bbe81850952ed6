//! Feature bits, and the revision that two sides' bits choose.

use crate::sys::Features;
use core::fmt;

impl Features {
    /// The bit of msgr2.1, the only one that the library knows.
    pub const REVISION_1: u64 = 1;

    /// Features with these supported and these required bits.
    ///
    /// ```
    /// use mahuixen::Features;
    ///
    /// let both_revisions = Features::new(Features::REVISION_1, 0);
    /// assert_eq!((both_revisions.supported, both_revisions.required), (1, 0));
    /// assert_eq!(both_revisions.to_string(), "supported 0x1, required 0x0");
    /// ```
    #[must_use]
    pub const fn new(supported: u64, required: u64) -> Self {
        Self {
            supported,
            required,
        }
    }
}

impl fmt::Display for Features {
    fn fmt(&self, f: &mut fmt::Formatter<'_>) -> fmt::Result {
        let Self {
            supported,
            required,
        } = self;
        write!(f, "supported {supported:#x}, required {required:#x}")
    }
}

/// Which msgr2 a stream speaks: msgr2.1 exactly when both sides support
/// [`Features::REVISION_1`].
///
/// ```
/// assert_eq!(mahuixen::Revision::Msgr21.to_string(), "msgr2.1");
/// ```
#[derive(Clone, Copy, Debug, PartialEq, Eq, Hash)]
pub enum Revision {
    /// msgr2.0
    Msgr20,
    /// msgr2.1
    Msgr21,
}

impl Revision {
    /// 0 for msgr2.0 and 1 for msgr2.1.
    ///
    /// ```
    /// assert_eq!(mahuixen::Revision::Msgr21.number(), 1);
    /// ```
    #[must_use]
    pub const fn number(self) -> u8 {
        match self {
            Self::Msgr20 => 0,
            Self::Msgr21 => 1,
        }
    }

    /// As in C, any number but 0 counts as 1.
    pub(crate) const fn from_number(number: u64) -> Self {
        match number {
            0 => Self::Msgr20,
            _ => Self::Msgr21,
        }
    }
}

impl fmt::Display for Revision {
    fn fmt(&self, f: &mut fmt::Formatter<'_>) -> fmt::Result {
        write!(f, "msgr2.{}", self.number())
    }
}
