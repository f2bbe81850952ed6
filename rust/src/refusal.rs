//! Why a stream or a request is turned away.

use crate::sys::RawRefusal;
use core::error::Error;
use core::fmt;

/// A refusal as bare numbers: its own and its details, 0 where there are fewer
/// than three.
#[derive(Clone, Copy, Debug, Default, PartialEq, Eq, Hash)]
pub struct Numbers {
    /// The refusal's number.
    pub number: u8,
    /// The first detail.
    pub first: u64,
    /// The second detail.
    pub second: u64,
    /// The third detail.
    pub third: u64,
}

impl From<RawRefusal> for Numbers {
    /// The number is one of its type, where the library wrote it; of another the
    /// low bits are kept.
    fn from(raw: RawRefusal) -> Self {
        Self {
            number: raw.number as u8,
            first: raw.first,
            second: raw.second,
            third: raw.third,
        }
    }
}

/// Feature bits that one side requires and the other one lacks.
#[derive(Clone, Copy, Debug, PartialEq, Eq, Hash)]
pub struct Missing {
    /// The missing bits.
    pub bits: u64,
    /// The number of the lowest one.
    pub lowest: u64,
    /// How many there are.
    pub count: u64,
}

/// Why a stream or a request is turned away, with the details that its number
/// has.
///
/// ```
/// use mahuixen::{Features, Receiver, Refusal};
///
/// let refusal = Receiver::start(Features::new(0, 1)).unwrap_err();
/// assert_eq!(refusal, Refusal::OwnFeatures);
/// assert_eq!((refusal.number(), refusal.details()), (16, [0, 0, 0]));
/// assert_eq!(
///     refusal.to_string(),
///     "our own features have a bit other than bit 0, or require one that they do not support"
/// );
/// ```
#[derive(Clone, Copy, Debug, PartialEq, Eq, Hash)]
#[non_exhaustive]
pub enum Refusal {
    /// 1: the stream's first eight bytes are not a banner's.
    Magic,
    /// 2: the banner's payload length is below 16 or above 1,024.
    BannerLength {
        /// The length.
        length: u64,
    },
    /// 3: the peer requires features that we do not support.
    PeerRequires(Missing),
    /// 4: we require features that the peer does not support.
    PeerLacks(Missing),
    /// 5: a preamble's checksum differs.
    PreambleChecksum {
        /// The byte of the preamble at which the checksum stands, 28.
        at: u64,
    },
    /// 6: the segment count is not 1 to 4, an unused segment is not 0, or the
    /// last of several segments is empty.
    Shape {
        /// The byte of the preamble at which the first such field stands.
        at: u64,
    },
    /// 7: a preamble's flags or its reserved byte are not 0.
    Flags {
        /// The byte of the preamble: 26, or 27 where the flags are 0.
        at: u64,
    },
    /// 8: the tag is outside 1 to 20.
    Tag {
        /// The tag.
        tag: u64,
    },
    /// 9: a segment is longer than 1,048,576 bytes, or all together are longer
    /// than 2,097,152; or a text that is sealed or opened is longer than 2^36 - 32.
    Limit {
        /// The byte of the preamble at which the first length that is too long
        /// stands, or, where none is, the one at which the sum becomes too
        /// long; 0 where it is a text.
        at: u64,
    },
    /// 10: the store is too short for the frame.
    StoreShort {
        /// Bytes that the frame needs: those of its segments, or, sealed, of its
        /// segments each rounded up to a multiple of 16, and 32 more.
        needed: u64,
    },
    /// 11: a segment's checksum differs.
    SegmentChecksum {
        /// The segment's number, 1 to 4.
        segment: u64,
    },
    /// 12: a late status says neither complete nor aborted.
    LateStatus {
        /// The byte.
        byte: u64,
    },
    /// 13, of a build: the source has not as many bytes as the segments
    /// together.
    SourceLength,
    /// 14: the buffer has no room, of a build behind its queued bytes; or more is
    /// queued than the buffer holds.
    NoRoom {
        /// Bytes to be written.
        needed: u64,
    },
    /// 15, of a build: a msgr2.1 frame of one segment cannot be aborted.
    AbortOneSegment,
    /// 16: our own features have a bit other than bit 0, or require what they
    /// do not support.
    OwnFeatures,
    /// 17: sealed bytes are fewer than 16, or their authentication tag differs.
    AuthTag,
    /// 18: of a sealed build, fewer nonces are left than the frame has parts; of
    /// a receiver, a sealed part came and no nonce is left to open it with.
    NoncesSpent,
    /// 19: padding in a sealed frame is not 0.
    Padding,
    /// 20: a body is not its tag's.
    BodyMalformed {
        /// The byte of the body at which the first fault stands.
        at: u64,
    },
    /// 21: a tag that the side's state does not wait for.
    UnexpectedTag {
        /// The tag.
        tag: u64,
    },
    /// 22: the session holds 64 messages.
    TableFull,
    /// 23: an ack, or a reconnect's msg_seq, above the last number given.
    AckAhead,
    /// 24: a frame's epilogue is not spelled as we write it: the checksum field
    /// of a segment that is not used is not 0, or a msgr2.0 frame's late flags
    /// are neither 0 nor 1.
    NonCanonical {
        /// The number of the lowest such segment, 2 to 4, or 0 where it is the
        /// late flags.
        segment: u64,
    },
    /// 25: the session's last message number was 2^64 - 1.
    NumbersSpent,
    /// 26: the fields of the state contradict each other, or a number is beyond
    /// its field.
    StateContradicts,
    /// 27: a switch to secure mode where there is none to be made, or a build
    /// with what such a switch handed back.
    SwitchRefused,
    /// A number that this crate does not know.
    Other {
        /// The number.
        number: u8,
        /// Its details.
        details: [u64; 3],
    },
}

impl Refusal {
    /// The refusal in these numbers, if it is one.
    pub(crate) fn given(raw: RawRefusal) -> Option<Self> {
        (raw.number != 0).then(|| Self::from(Numbers::from(raw)))
    }

    /// The refusal's number.
    ///
    /// ```
    /// assert_eq!(mahuixen::Refusal::SegmentChecksum { segment: 2 }.number(), 11);
    /// ```
    #[must_use]
    pub const fn number(&self) -> u8 {
        match self {
            Self::Magic => 1,
            Self::BannerLength { .. } => 2,
            Self::PeerRequires(_) => 3,
            Self::PeerLacks(_) => 4,
            Self::PreambleChecksum { .. } => 5,
            Self::Shape { .. } => 6,
            Self::Flags { .. } => 7,
            Self::Tag { .. } => 8,
            Self::Limit { .. } => 9,
            Self::StoreShort { .. } => 10,
            Self::SegmentChecksum { .. } => 11,
            Self::LateStatus { .. } => 12,
            Self::SourceLength => 13,
            Self::NoRoom { .. } => 14,
            Self::AbortOneSegment => 15,
            Self::OwnFeatures => 16,
            Self::AuthTag => 17,
            Self::NoncesSpent => 18,
            Self::Padding => 19,
            Self::BodyMalformed { .. } => 20,
            Self::UnexpectedTag { .. } => 21,
            Self::TableFull => 22,
            Self::AckAhead => 23,
            Self::NonCanonical { .. } => 24,
            Self::NumbersSpent => 25,
            Self::StateContradicts => 26,
            Self::SwitchRefused => 27,
            Self::Other { number, .. } => *number,
        }
    }

    /// The refusal's details, 0 where there are fewer than three.
    ///
    /// ```
    /// use mahuixen::{Missing, Refusal};
    ///
    /// let missing = Missing { bits: 0x14, lowest: 2, count: 2 };
    /// assert_eq!(Refusal::PeerRequires(missing).details(), [0x14, 2, 2]);
    /// assert_eq!(Refusal::Tag { tag: 21 }.details(), [21, 0, 0]);
    /// ```
    #[must_use]
    pub const fn details(&self) -> [u64; 3] {
        match *self {
            Self::PeerRequires(missing) | Self::PeerLacks(missing) => {
                [missing.bits, missing.lowest, missing.count]
            }
            Self::BannerLength { length: first }
            | Self::PreambleChecksum { at: first }
            | Self::Shape { at: first }
            | Self::Flags { at: first }
            | Self::Tag { tag: first }
            | Self::Limit { at: first }
            | Self::StoreShort { needed: first }
            | Self::SegmentChecksum { segment: first }
            | Self::LateStatus { byte: first }
            | Self::NoRoom { needed: first }
            | Self::BodyMalformed { at: first }
            | Self::UnexpectedTag { tag: first }
            | Self::NonCanonical { segment: first } => [first, 0, 0],
            Self::Other { details, .. } => details,
            _ => [0; 3],
        }
    }
}

impl From<Numbers> for Refusal {
    /// Details that the number does not have are left out.
    fn from(numbers: Numbers) -> Self {
        let Numbers {
            number,
            first,
            second,
            third,
        } = numbers;
        let missing = Missing {
            bits: first,
            lowest: second,
            count: third,
        };
        match number {
            1 => Self::Magic,
            2 => Self::BannerLength { length: first },
            3 => Self::PeerRequires(missing),
            4 => Self::PeerLacks(missing),
            5 => Self::PreambleChecksum { at: first },
            6 => Self::Shape { at: first },
            7 => Self::Flags { at: first },
            8 => Self::Tag { tag: first },
            9 => Self::Limit { at: first },
            10 => Self::StoreShort { needed: first },
            11 => Self::SegmentChecksum { segment: first },
            12 => Self::LateStatus { byte: first },
            13 => Self::SourceLength,
            14 => Self::NoRoom { needed: first },
            15 => Self::AbortOneSegment,
            16 => Self::OwnFeatures,
            17 => Self::AuthTag,
            18 => Self::NoncesSpent,
            19 => Self::Padding,
            20 => Self::BodyMalformed { at: first },
            21 => Self::UnexpectedTag { tag: first },
            22 => Self::TableFull,
            23 => Self::AckAhead,
            24 => Self::NonCanonical { segment: first },
            25 => Self::NumbersSpent,
            26 => Self::StateContradicts,
            27 => Self::SwitchRefused,
            _ => Self::Other {
                number,
                details: [first, second, third],
            },
        }
    }
}

impl fmt::Display for Missing {
    fn fmt(&self, f: &mut fmt::Formatter<'_>) -> fmt::Result {
        match self.count {
            1 => write!(f, "feature bit {}", self.lowest),
            count => {
                let Self { bits, lowest, .. } = self;
                write!(f, "{count} feature bits from bit {lowest} on ({bits:#x})")
            }
        }
    }
}

impl fmt::Display for Refusal {
    fn fmt(&self, f: &mut fmt::Formatter<'_>) -> fmt::Result {
        match self {
            Self::Magic => write!(f, "the stream does not begin as a banner does"),
            Self::BannerLength { length } => {
                write!(f, "the banner's payload length is {length}, not 16 to 1024")
            }
            Self::PeerRequires(missing) => write!(f, "the peer requires {missing}, which we lack"),
            Self::PeerLacks(missing) => write!(f, "we require {missing}, which the peer lacks"),
            Self::PreambleChecksum { .. } => write!(f, "the preamble's checksum differs"),
            Self::Shape { at } => write!(
                f,
                "the segment count or the shape of the segments is wrong, at byte {at} of the preamble"
            ),
            Self::Flags { at } => write!(
                f,
                "the preamble's flags or its reserved byte are not 0, at byte {at}"
            ),
            Self::Tag { tag } => write!(f, "the tag is {tag}, not 1 to 20"),
            Self::Limit { at: 0 } => write!(f, "the text is longer than 2^36 - 32 bytes"),
            Self::Limit { at } => write!(
                f,
                "a segment is longer than 1048576 bytes, or all together than 2097152, at byte {at} of the preamble"
            ),
            Self::StoreShort { needed } => {
                write!(f, "the store is too short for the frame, which needs {needed} bytes")
            }
            Self::SegmentChecksum { segment } => {
                write!(f, "the checksum of segment {segment} differs")
            }
            Self::LateStatus { byte } => write!(
                f,
                "the late status is {byte:#04x}, whose low four bits are neither complete (e) nor aborted (1)"
            ),
            Self::SourceLength => write!(
                f,
                "the source has not as many bytes as the segments together"
            ),
            Self::NoRoom { needed } => write!(f, "the buffer has no room for {needed} bytes"),
            Self::AbortOneSegment => write!(f, "a msgr2.1 frame of one segment cannot be aborted"),
            Self::OwnFeatures => write!(
                f,
                "our own features have a bit other than bit 0, or require one that they do not support"
            ),
            Self::AuthTag => write!(f, "the authentication tag differs or is cut off"),
            Self::NoncesSpent => write!(f, "the key has not enough nonces left for the frame"),
            Self::Padding => write!(f, "padding in a sealed frame is not 0"),
            Self::BodyMalformed { at } => write!(f, "the body is not its tag's, at byte {at}"),
            Self::UnexpectedTag { tag } => {
                write!(f, "the handshake does not wait for tag {tag}")
            }
            Self::TableFull => write!(f, "the session holds as many messages as it can"),
            Self::AckAhead => write!(f, "the peer acknowledges a message that was never sent"),
            Self::NonCanonical { segment: 0 } => write!(f, "the late flags are neither 0 nor 1"),
            Self::NonCanonical { segment } => write!(
                f,
                "the checksum field of segment {segment}, which is not used, is not 0"
            ),
            Self::NumbersSpent => write!(f, "the session has no message number left"),
            Self::StateContradicts => write!(
                f,
                "the fields of the state contradict each other, or a number is beyond its field"
            ),
            Self::SwitchRefused => write!(f, "there was no switch to secure mode to be made"),
            Self::Other { number, details } => {
                write!(f, "refusal {number} with the details {details:?}")
            }
        }
    }
}

impl Error for Refusal {}

#[cfg(test)]
mod tests;
