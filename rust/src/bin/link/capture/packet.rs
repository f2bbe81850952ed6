//! What a packet carries: the TCP segment inside of IP inside of the link's
//! own wrapping.

use std::net::{IpAddr, Ipv4Addr, Ipv6Addr, SocketAddr};

/// How packets are wrapped on the link that was captured.
#[derive(Clone, Copy, Debug, PartialEq, Eq)]
pub enum LinkType {
    Ethernet,
    /// BSD loopback: a 32-bit protocol family, in any byte order.
    Loopback,
    /// Linux cooked, both versions.
    Cooked,
    Cooked2,
    /// IPv4 or IPv6 with nothing around it.
    Raw,
}

impl LinkType {
    /// The link type with this number.
    pub fn from_number(number: u32) -> Option<Self> {
        match number {
            0 | 108 => Some(Self::Loopback),
            1 => Some(Self::Ethernet),
            12 | 14 | 101 | 228 | 229 => Some(Self::Raw),
            113 => Some(Self::Cooked),
            276 => Some(Self::Cooked2),
            _ => None,
        }
    }
}

/// A TCP segment.
#[derive(Clone, Copy, Debug, PartialEq, Eq)]
pub struct Segment<'a> {
    pub from: SocketAddr,
    pub to: SocketAddr,
    /// The sequence number of the first byte, or of the SYN.
    pub sequence: u32,
    pub acknowledged: Option<u32>,
    pub syn: bool,
    pub fin: bool,
    pub reset: bool,
    pub bytes: &'a [u8],
    /// How many of its bytes behind these were not captured.
    pub missing: usize,
}

/// Why a packet has no segment to give.
#[derive(Clone, Copy, Debug, PartialEq, Eq)]
pub enum Skipped {
    /// It carries something other than TCP over IP.
    Other,
    /// It is a fragment of an IP packet.
    Fragment,
    /// It is too short for its headers, or its lengths contradict each other.
    Malformed,
}

type Decoded<T> = Result<T, Skipped>;

/// The packet's bytes from some layer on, and how many there were on the wire.
#[derive(Clone, Copy)]
struct Layer<'a> {
    bytes: &'a [u8],
    length: usize,
}

/// The protocol numbers of IP.
const TCP: u8 = 6;

/// The segment in a packet, given the bytes captured of it and its length.
pub fn segment(link: LinkType, bytes: &[u8], length: usize) -> Decoded<Segment<'_>> {
    let packet = Layer { bytes, length };
    match link {
        LinkType::Raw => packet.ip(),
        LinkType::Loopback => packet.loopback(),
        LinkType::Ethernet => packet.ethernet(12),
        LinkType::Cooked => packet.ethernet(14),
        LinkType::Cooked2 => packet.cooked2(),
    }
}

impl<'a> Layer<'a> {
    /// The bytes at a place, if they were captured.
    fn field<const N: usize>(self, place: usize) -> Decoded<[u8; N]> {
        let bytes = self.bytes.get(place..).ok_or(Skipped::Malformed)?;
        bytes.first_chunk().copied().ok_or(Skipped::Malformed)
    }

    fn byte(self, place: usize) -> Decoded<u8> {
        self.field::<1>(place).map(|[byte]| byte)
    }

    fn half(self, place: usize) -> Decoded<u16> {
        self.field(place).map(u16::from_be_bytes)
    }

    fn word(self, place: usize) -> Decoded<u32> {
        self.field(place).map(u32::from_be_bytes)
    }

    /// The layer behind a header of this length.
    fn behind(self, header: usize) -> Decoded<Self> {
        let bytes = self.bytes.get(header..).ok_or(Skipped::Malformed)?;
        let length = self.length.checked_sub(header).ok_or(Skipped::Malformed)?;
        Ok(Self { bytes, length })
    }

    /// As many bytes of the layer as its own header says; behind them stands
    /// what fills up a short packet on Ethernet.
    fn cut(self, length: usize) -> Decoded<Self> {
        if length > self.length {
            return Err(Skipped::Malformed);
        }
        let bytes = &self.bytes[..length.min(self.bytes.len())];
        Ok(Self { bytes, length })
    }

    fn loopback(self) -> Decoded<Segment<'a>> {
        let family = self.word(0)?;
        // IPv4, and the numbers that IPv6 has on different systems.
        match family.min(family.swap_bytes()) {
            2 | 10 | 24 | 28 | 30 => self.behind(4)?.ip(),
            _ => Err(Skipped::Other),
        }
    }

    fn cooked2(self) -> Decoded<Segment<'a>> {
        let kind = self.half(0)?;
        self.behind(20)?.carried(kind)
    }

    /// A header that ends with the 16-bit number of what it carries, at a
    /// place.
    fn ethernet(self, place: usize) -> Decoded<Segment<'a>> {
        let kind = self.half(place)?;
        self.behind(place + 2)?.carried(kind)
    }

    /// What a header with this number carries, behind any VLAN tags.
    fn carried(mut self, mut kind: u16) -> Decoded<Segment<'a>> {
        while matches!(kind, 0x8100 | 0x88A8 | 0x9100) {
            kind = self.half(2)?;
            self = self.behind(4)?;
        }
        match kind {
            0x0800 | 0x86DD => self.ip(),
            _ => Err(Skipped::Other),
        }
    }

    fn ip(self) -> Decoded<Segment<'a>> {
        match self.byte(0)? >> 4 {
            4 => self.ipv4(),
            6 => self.ipv6(),
            _ => Err(Skipped::Malformed),
        }
    }

    fn ipv4(self) -> Decoded<Segment<'a>> {
        let header = 4 * usize::from(self.byte(0)? & 15);
        // A sender's own capture may have 0 where the packet is cut up later.
        let total = match usize::from(self.half(2)?) {
            0 => self.length,
            total => total,
        };
        if header < 20 {
            return Err(Skipped::Malformed);
        }
        // More fragments follow, or some stand in front.
        if self.half(6)? & 0x3FFF != 0 {
            return Err(Skipped::Fragment);
        }
        if self.byte(9)? != TCP {
            return Err(Skipped::Other);
        }
        let from = Ipv4Addr::from(self.field::<4>(12)?);
        let to = Ipv4Addr::from(self.field::<4>(16)?);
        let inside = self.cut(total)?.behind(header)?;
        inside.tcp(from.into(), to.into())
    }

    fn ipv6(self) -> Decoded<Segment<'a>> {
        let from = Ipv6Addr::from(self.field::<16>(8)?);
        let to = Ipv6Addr::from(self.field::<16>(24)?);
        let next = self.byte(6)?;
        let payload = usize::from(self.half(4)?);
        let inside = self.behind(40)?;
        // As in IPv4, 0 is for a packet longer than its field can say.
        let inside = match payload {
            0 => inside,
            payload => inside.cut(payload)?,
        };
        inside.behind_extensions(next, from.into(), to.into())
    }

    /// The segment behind IPv6's extension headers, the first of which has
    /// this number.
    fn behind_extensions(mut self, mut next: u8, from: IpAddr, to: IpAddr) -> Decoded<Segment<'a>> {
        loop {
            let length = match next {
                TCP => return self.tcp(from, to),
                // Hop-by-hop options, routing, destination options.
                0 | 43 | 60 => 8 * (usize::from(self.byte(1)?) + 1),
                // A fragment header, here of a packet that is whole.
                44 if self.half(2)? & 0xFFF9 == 0 => 8,
                44 => return Err(Skipped::Fragment),
                // An authentication header.
                51 => 4 * (usize::from(self.byte(1)?) + 2),
                _ => return Err(Skipped::Other),
            };
            next = self.byte(0)?;
            self = self.behind(length)?;
        }
    }

    fn tcp(self, from: IpAddr, to: IpAddr) -> Decoded<Segment<'a>> {
        let header = 4 * usize::from(self.byte(12)? >> 4);
        if header < 20 {
            return Err(Skipped::Malformed);
        }
        let flags = self.byte(13)?;
        let acknowledged = self.word(8)?;
        // The header's options are no use, and may not have been captured.
        let inside = self.length.checked_sub(header).ok_or(Skipped::Malformed)?;
        let bytes = self.bytes.get(header..).unwrap_or(&[]);
        Ok(Segment {
            from: SocketAddr::new(from, self.half(0)?),
            to: SocketAddr::new(to, self.half(2)?),
            sequence: self.word(4)?,
            acknowledged: (flags & 0x10 != 0).then_some(acknowledged),
            syn: flags & 0x02 != 0,
            fin: flags & 0x01 != 0,
            reset: flags & 0x04 != 0,
            bytes,
            missing: inside - bytes.len(),
        })
    }
}
