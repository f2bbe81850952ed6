//! Writes captures for the tests.

use std::net::{IpAddr, SocketAddr};

/// How a capture is written, and what of it is written already.
#[derive(Clone, Debug)]
pub struct Writer {
    pub big: bool,
    pub nanoseconds: bool,
    /// The number of the link type.
    pub link: u32,
    /// VLAN tags in front of what Ethernet or Linux cooked carries.
    pub vlans: usize,
    /// Extension headers behind an IPv6 header.
    pub extensions: bool,
    /// The most bytes that are captured of a packet.
    pub most: usize,
    /// Whether lengths of IP packets are left 0.
    pub unsaid: bool,
    /// Whether the headers of IPv4 and TCP have no options.
    pub plain: bool,
    /// The file; its header is written with the first packet.
    pub file: Vec<u8>,
    packets: u32,
}

/// A TCP segment to be written.
#[derive(Clone, Copy, Debug)]
pub struct Sent<'a> {
    pub from: SocketAddr,
    pub to: SocketAddr,
    pub sequence: u32,
    pub acknowledged: u32,
    pub flags: u8,
    pub bytes: &'a [u8],
}

pub const FIN: u8 = 0x01;
pub const SYN: u8 = 0x02;
pub const RESET: u8 = 0x04;
pub const ACK: u8 = 0x10;

impl Writer {
    pub fn new(link: u32) -> Self {
        Self {
            big: false,
            nanoseconds: false,
            link,
            vlans: 0,
            extensions: false,
            most: usize::MAX,
            unsaid: false,
            plain: false,
            file: Vec::new(),
            packets: 0,
        }
    }

    fn put(&mut self, number: u32) {
        let bytes = if self.big {
            number.to_be_bytes()
        } else {
            number.to_le_bytes()
        };
        self.file.extend(bytes);
    }

    /// The file's header.
    pub fn begin(&mut self) {
        if !self.file.is_empty() {
            return;
        }
        self.put(if self.nanoseconds {
            0xA1B2_3C4D
        } else {
            0xA1B2_C3D4
        });
        // Version 2.4, as two numbers of 16 bits.
        self.put(if self.big { 0x0002_0004 } else { 0x0004_0002 });
        let fields = [0, 0, 262_144, self.link];
        fields.iter().for_each(|number| self.put(*number));
    }

    /// A packet, with a time of 1,000 seconds and half a millisecond for each
    /// one before it.
    pub fn packet(&mut self, packet: &[u8]) {
        self.begin();
        let captured = &packet[..packet.len().min(self.most)];
        self.put(1_000);
        self.put(self.packets * if self.nanoseconds { 500_000 } else { 500 });
        self.put(captured.len() as u32);
        self.put(packet.len() as u32);
        self.file.extend(captured);
        self.packets += 1;
    }

    /// A packet with a segment.
    pub fn send(&mut self, sent: &Sent) {
        let packet = self.wrapped(sent);
        self.packet(&packet);
    }

    /// The packet around a segment.
    pub fn wrapped(&self, sent: &Sent) -> Vec<u8> {
        let inside = self.ip(sent);
        let kind: u16 = if sent.from.is_ipv4() { 0x0800 } else { 0x86DD };
        let family: u32 = if sent.from.is_ipv4() { 2 } else { 30 };
        let mut packet = match self.link {
            0 if self.big => family.to_be_bytes().to_vec(),
            0 => family.to_le_bytes().to_vec(),
            108 => family.to_be_bytes().to_vec(),
            1 => vec![0xEE; 12],
            113 => vec![0xEE; 14],
            276 => vec![0xEE; 0],
            _ => vec![],
        };
        if matches!(self.link, 1 | 113) {
            (0..self.vlans).for_each(|_| packet.extend([0x81, 0x00, 0x00, 0x07]));
            packet.extend(kind.to_be_bytes());
        }
        if self.link == 276 {
            packet.extend(kind.to_be_bytes());
            packet.extend([0xEE; 18]);
        }
        packet.extend(inside);
        // Ethernet has no shorter packets than these.
        if self.link == 1 && packet.len() < 60 {
            packet.resize(60, 0x55);
        }
        packet
    }

    fn ip(&self, sent: &Sent) -> Vec<u8> {
        let inside = self.tcp(sent);
        let extensions = if self.extensions {
            extensions()
        } else {
            vec![]
        };
        let next = if self.extensions { 0 } else { 6 };
        let length = |more: usize| match self.unsaid {
            true => 0,
            false => (more + inside.len()) as u16,
        };
        let mut packet = Vec::new();
        match (sent.from.ip(), sent.to.ip()) {
            (IpAddr::V4(from), IpAddr::V4(to)) => {
                let options: &[u8] = if self.plain { &[] } else { &[1, 1, 1, 1] };
                let header = 20 + options.len();
                packet.extend([0x40 | (header / 4) as u8, 0]);
                packet.extend(length(header).to_be_bytes());
                packet.extend([0, 7, 0x40, 0, 64, 6, 0, 0]);
                packet.extend(from.octets());
                packet.extend(to.octets());
                packet.extend(options);
            }
            (IpAddr::V6(from), IpAddr::V6(to)) => {
                packet.extend([0x60, 0, 0, 0]);
                packet.extend(length(extensions.len()).to_be_bytes());
                packet.extend([next, 64]);
                packet.extend(from.octets());
                packet.extend(to.octets());
                packet.extend(extensions);
            }
            _ => panic!("addresses of two kinds"),
        }
        packet.extend(inside);
        packet
    }

    fn tcp(&self, sent: &Sent) -> Vec<u8> {
        let options: &[u8] = if self.plain { &[] } else { &[1; 12] };
        let mut segment = Vec::new();
        segment.extend(sent.from.port().to_be_bytes());
        segment.extend(sent.to.port().to_be_bytes());
        segment.extend(sent.sequence.to_be_bytes());
        segment.extend(sent.acknowledged.to_be_bytes());
        segment.extend([((20 + options.len()) * 4) as u8, sent.flags]);
        segment.extend([1, 0, 0, 0, 0, 0]);
        segment.extend(options);
        segment.extend(sent.bytes);
        segment
    }
}

/// Writes the other format in a byte order.
#[derive(Clone, Copy)]
struct Blocks {
    big: bool,
}

impl Blocks {
    fn word(self, number: u32) -> [u8; 4] {
        match self.big {
            true => number.to_be_bytes(),
            false => number.to_le_bytes(),
        }
    }

    fn halves(self, first: u16, second: u16) -> [u8; 4] {
        let word = match self.big {
            true => u32::from(first) << 16 | u32::from(second),
            false => u32::from(second) << 16 | u32::from(first),
        };
        self.word(word)
    }

    fn block(self, kind: u32, inside: &[&[u8]]) -> Vec<u8> {
        let mut inside = inside.concat();
        inside.resize(inside.len().next_multiple_of(4), 0);
        let length = self.word(12 + inside.len() as u32);
        [&self.word(kind), &length, &inside[..], &length].concat()
    }

    /// A section with an interface that has options, among them the unit of its
    /// times, a millionth; and a block that is skipped.
    fn front(self, link: u32) -> Vec<u8> {
        let magic = self.word(0x1A2B_3C4D);
        let interface = [
            &self.halves(link as u16, 0)[..],
            &self.word(0),
            &self.halves(2, 2),
            b"lo\0\0",
            &self.halves(9, 1),
            &[6, 0, 0, 0],
            &self.halves(0, 0),
        ];
        let section = self.block(0x0A0D_0D0A, &[&magic, &self.halves(1, 0), &[0xFF; 8]]);
        let skipped = self.block(0x0BAD, &[b"what nobody knows"]);
        [section, self.block(1, &interface), skipped].concat()
    }
}

/// A capture of the other format with the packets of a little-endian one, in
/// all kinds of blocks. Simple ones have no time and come only where that is
/// wanted.
pub fn pcapng(file: &[u8], big: bool, simple: bool) -> Vec<u8> {
    let blocks = Blocks { big };
    let field = |place: usize| crate::layout::number(file, place..place + 4) as u32;
    let mut out = blocks.front(field(20));
    let (mut place, mut number) = (24, 0);
    while place < file.len() {
        let units = u64::from(field(place)) * 1_000_000 + u64::from(field(place + 4));
        let times = [(units >> 32) as u32, units as u32].map(|half| blocks.word(half));
        let (captured, length) = (field(place + 8), field(place + 12));
        let lengths = [captured, length].map(|length| blocks.word(length));
        let bytes = &file[place + 16..place + 16 + captured as usize];
        let (times, lengths) = (times.concat(), lengths.concat());
        out.extend(match number % 3 {
            0 if simple => blocks.block(3, &[&blocks.word(length), bytes]),
            1 => blocks.block(2, &[&blocks.halves(0, 0), &times, &lengths, bytes]),
            _ => blocks.block(6, &[&blocks.word(0), &times, &lengths, bytes]),
        });
        number += 1;
        place += 16 + captured as usize;
    }
    out
}

/// Hop-by-hop options, destination options of 16 bytes, an authentication
/// header and the fragment header of a whole packet; then TCP.
fn extensions() -> Vec<u8> {
    let mut headers = vec![60, 0, 1, 4, 0, 0, 0, 0];
    headers.extend([51, 1, 1, 12, 0, 0, 0, 0, 0, 0, 0, 0, 0, 0, 0, 0]);
    headers.extend([44, 1, 0, 0, 0, 0, 0, 9, 0, 0, 0, 1]);
    headers.extend([6, 0, 0, 0, 0, 0, 0, 5]);
    headers
}
