//! Both sides' features and the banners that tell of them.

use crate::refusal::Refusal;
use crate::wire::Revision;
use std::ops::RangeInclusive;

const MAGIC: [u8; 8] = *b"ceph v2\n";
const PAYLOAD_LENGTH: u16 = 16;

/// The payload lengths we take from a peer.
const PAYLOAD_LENGTHS: RangeInclusive<u16> = 16..=1_024;

/// Bytes of the fixed start.
pub const MAGIC_LENGTH: usize = MAGIC.len();

/// Bytes up to the payload: the fixed start and the payload's length.
pub const BANNER_HEAD_LENGTH: usize = MAGIC_LENGTH + 2;

/// Bytes of our banner on the wire.
pub const BANNER_LENGTH: u64 = 26;

/// The bit of msgr2.1.
const REVISION_1: u64 = 1;

/// The feature bits we know.
const KNOWN: u64 = REVISION_1;

#[derive(Clone, Copy, Debug, PartialEq, Eq)]
pub struct Features {
    pub supported: u64,
    pub required: u64,
}

/// Judges the first eight bytes of a stream.
pub fn judge_magic(bytes: &[u8]) -> Result<(), Refusal> {
    if bytes == MAGIC {
        Ok(())
    } else {
        Err(Refusal::magic())
    }
}

pub fn judge_payload_length(length: u16) -> Result<(), Refusal> {
    if PAYLOAD_LENGTHS.contains(&length) {
        Ok(())
    } else {
        Err(Refusal::banner_length(length))
    }
}

impl Features {
    pub const fn new(supported: u64, required: u64) -> Self {
        Self {
            supported,
            required,
        }
    }

    /// The two words at the front of a payload; what follows them is skipped.
    pub fn read(payload: &[u8]) -> Self {
        let word = |place: usize| {
            let bytes = payload[place..].first_chunk().expect("a payload's word");
            u64::from_le_bytes(*bytes)
        };
        Self::new(word(0), word(8))
    }

    /// Judges the peer's features against ours; what the peer lacks for us
    /// comes second. Good ones choose the revision.
    pub fn judge_peer(&self, peer: &Self) -> Result<Revision, Refusal> {
        let we_lack = peer.required & !self.supported;
        let peer_lacks = self.required & !peer.supported;
        if we_lack != 0 {
            return Err(Refusal::peer_requires(we_lack));
        }
        if peer_lacks != 0 {
            return Err(Refusal::peer_lacks(peer_lacks));
        }
        if self.supported & peer.supported & REVISION_1 != 0 {
            Ok(Revision::Msgr21)
        } else {
            Ok(Revision::Msgr20)
        }
    }

    /// We can't offer a bit we don't know, nor ask for one we don't offer.
    pub fn judge_own(&self) -> Result<(), Refusal> {
        let unknown = (self.supported | self.required) & !KNOWN;
        let not_offered = self.required & !self.supported;
        if unknown | not_offered == 0 {
            Ok(())
        } else {
            Err(Refusal::own_features())
        }
    }

    pub fn banner(&self) -> Vec<u8> {
        let mut bytes = MAGIC.to_vec();
        bytes.extend(PAYLOAD_LENGTH.to_le_bytes());
        bytes.extend(self.supported.to_le_bytes());
        bytes.extend(self.required.to_le_bytes());
        bytes
    }
}

#[cfg(test)]
mod tests {
    use super::*;

    #[test]
    fn our_banner() {
        let features = Features {
            supported: 1,
            required: 0,
        };
        let bytes = [
            0x63, 0x65, 0x70, 0x68, 0x20, 0x76, 0x32, 0x0A, // the fixed start
            0x10, 0x00, // payload length
            0x01, 0x00, 0x00, 0x00, 0x00, 0x00, 0x00, 0x00, // supported
            0x00, 0x00, 0x00, 0x00, 0x00, 0x00, 0x00, 0x00, // required
        ];
        assert_eq!(features.banner(), bytes);
        assert_eq!(bytes.len() as u64, BANNER_LENGTH);
    }

    #[test]
    fn payload_lengths() {
        let judged = |length| judge_payload_length(length).map_err(|r| r.detail);
        assert_eq!(judged(15), Err([15, 0, 0]));
        assert_eq!((judged(16), judged(1_024)), (Ok(()), Ok(())));
        assert_eq!(judged(1_025), Err([1_025, 0, 0]));
    }

    #[test]
    fn peer_features() {
        let judged = |own: (u64, u64), peer: (u64, u64)| {
            Features::new(own.0, own.1).judge_peer(&Features::new(peer.0, peer.1))
        };
        assert_eq!(judged((1, 0), (1, 0)), Ok(Revision::Msgr21));
        assert_eq!(judged((1, 1), (5, 1)), Ok(Revision::Msgr21));
        assert_eq!(judged((1, 0), (4, 0)), Ok(Revision::Msgr20));
        assert_eq!(judged((0, 0), (1, 0)), Ok(Revision::Msgr20));
        let refused = |number, detail| Err(Refusal { number, detail });
        assert_eq!(judged((1, 0), (0, 0x14)), refused(3, [0x14, 2, 2]));
        assert_eq!(judged((0, 0), (1, 1)), refused(3, [1, 0, 1]));
        assert_eq!(judged((1, 1), (6, 0)), refused(4, [1, 0, 1]));
        assert_eq!(judged((1, 1), (0, 1 << 63)), refused(3, [1 << 63, 63, 1]));
    }

    #[test]
    fn own_features() {
        let judged = |supported, required| {
            Features {
                supported,
                required,
            }
            .judge_own()
            .is_ok()
        };
        assert!(judged(0, 0) && judged(1, 0) && judged(1, 1));
        assert!(!judged(0, 1) && !judged(2, 0) && !judged(3, 1));
        assert!(!judged(0, 2) && !judged(2, 2) && !judged(1 << 63, 0));
    }
}
