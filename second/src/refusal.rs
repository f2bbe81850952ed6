//! The numbers a stream or a request is turned away with, and the detail of
//! each.

/// A refusal's number and its three detail values, 0 where there are fewer.
#[derive(Clone, Copy, Debug, PartialEq, Eq)]
pub struct Refusal {
    pub number: u8,
    pub detail: [u64; 3],
}

impl Refusal {
    const fn new(number: u8, detail: u64) -> Self {
        Self {
            number,
            detail: [detail, 0, 0],
        }
    }

    /// Feature bits that are missing: which, the lowest one's number, how many.
    const fn missing(number: u8, bits: u64) -> Self {
        let lowest = bits.trailing_zeros() as u64;
        let count = bits.count_ones() as u64;
        Self {
            number,
            detail: [bits, lowest, count],
        }
    }

    /// The stream doesn't begin with the banner's fixed bytes.
    pub const fn magic() -> Self {
        Self::new(1, 0)
    }

    /// The banner's payload is shorter or longer than we take.
    pub const fn banner_length(length: u16) -> Self {
        Self::new(2, length as u64)
    }

    /// The peer requires bits that we don't support.
    pub const fn peer_requires(bits: u64) -> Self {
        Self::missing(3, bits)
    }

    /// We require bits that the peer doesn't support.
    pub const fn peer_lacks(bits: u64) -> Self {
        Self::missing(4, bits)
    }

    /// The preamble's checksum, at this byte, differs.
    pub const fn preamble_checksum(at: usize) -> Self {
        Self::new(5, at as u64)
    }

    /// The segment count or the shape is wrong; the first field at fault
    /// begins at this byte of the preamble.
    pub const fn shape(at: usize) -> Self {
        Self::new(6, at as u64)
    }

    /// The flags or the reserved byte of a preamble, at this byte, are set.
    pub const fn flags(at: usize) -> Self {
        Self::new(7, at as u64)
    }

    /// The tag is none that we know.
    pub const fn tag(tag: u8) -> Self {
        Self::new(8, tag as u64)
    }

    /// A segment or the sum of the segments is too long; the length at fault
    /// begins at this byte of the preamble.
    pub const fn limit(at: usize) -> Self {
        Self::new(9, at as u64)
    }

    /// A text is longer than GCM can seal; no field is at fault.
    pub const fn limit_of_text() -> Self {
        Self::new(9, 0)
    }

    /// The store is too short for the frame, which needs this many bytes.
    pub const fn store_short(needed: u64) -> Self {
        Self::new(10, needed)
    }

    /// The checksum of the segment at this place, counted from 0, differs.
    pub const fn segment_checksum(place: usize) -> Self {
        Self::new(11, place as u64 + 1)
    }

    /// The late status is no code word.
    pub const fn late_status(byte: u8) -> Self {
        Self::new(12, byte as u64)
    }

    /// The source does not hold exactly the segments' bytes.
    pub const fn source_length() -> Self {
        Self::new(13, 0)
    }

    /// The buffer has no room for this many bytes.
    pub const fn no_room(needed: u64) -> Self {
        Self::new(14, needed)
    }

    /// The frame has no epilogue that could say it is aborted.
    pub const fn abort_one_segment() -> Self {
        Self::new(15, 0)
    }

    /// Our own feature bits are unknown or contradict each other.
    pub const fn own_features() -> Self {
        Self::new(16, 0)
    }

    /// Sealed bytes are not what their key and nonce gave.
    pub const fn auth_tag() -> Self {
        Self::new(17, 0)
    }

    /// Every nonce was used, or fewer are left than a frame needs.
    pub const fn nonces_spent() -> Self {
        Self::new(18, 0)
    }

    /// Padding behind a good tag is not zero.
    pub const fn padding() -> Self {
        Self::new(19, 0)
    }

    /// A body is malformed; the first fault is at this byte of it.
    pub const fn body_malformed(at: usize) -> Self {
        Self::new(20, at as u64)
    }

    /// A handshake doesn't take this tag now.
    pub const fn unexpected_tag(tag: u8) -> Self {
        Self::new(21, tag as u64)
    }

    /// A session holds as many messages as it can.
    pub const fn table_full() -> Self {
        Self::new(22, 0)
    }

    /// An ack of a number that was never sent.
    pub const fn ack_ahead() -> Self {
        Self::new(23, 0)
    }

    /// The checksum field of the unused segment at this place, counted from 0,
    /// is not 0.
    pub const fn non_canonical_checksum(place: usize) -> Self {
        Self::new(24, place as u64 + 1)
    }

    /// The late flags are neither 0 nor 1.
    pub const fn non_canonical_flags() -> Self {
        Self::new(24, 0)
    }

    /// A session's numbers are all given.
    pub const fn numbers_spent() -> Self {
        Self::new(25, 0)
    }

    /// A switch to secure mode at another moment than it may be made, or a build
    /// with the state that such a switch handed back.
    pub const fn switch_refused() -> Self {
        Self::new(27, 0)
    }
}
