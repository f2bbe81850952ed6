//! The file of a capture, in one of two formats.

use super::packet::LinkType;
use super::pcap::{self, Pcap};
use super::pcapng::{self, Pcapng};
use std::fmt;
use std::time::Duration;

/// In which order the bytes of a number stand.
#[derive(Clone, Copy, Debug, PartialEq, Eq)]
pub enum Order {
    Little,
    Big,
}

impl Order {
    /// The 16-bit number at a place, if it is there.
    pub fn half(self, bytes: &[u8], place: usize) -> Option<u16> {
        let bytes = *bytes.get(place..)?.first_chunk()?;
        Some(match self {
            Self::Little => u16::from_le_bytes(bytes),
            Self::Big => u16::from_be_bytes(bytes),
        })
    }

    /// The 32-bit number at a place, if it is there.
    pub fn word(self, bytes: &[u8], place: usize) -> Option<u32> {
        let bytes = *bytes.get(place..)?.first_chunk()?;
        Some(match self {
            Self::Little => u32::from_le_bytes(bytes),
            Self::Big => u32::from_be_bytes(bytes),
        })
    }
}

/// Why a capture cannot be read at all.
#[derive(Clone, Debug, PartialEq, Eq)]
pub enum Unreadable {
    Modified,
    Header,
    Version(u16),
    Link(u32),
}

impl fmt::Display for Unreadable {
    fn fmt(&self, f: &mut fmt::Formatter<'_>) -> fmt::Result {
        match self {
            Self::Modified => write!(
                f,
                "a capture in a modified pcap format (a1b2cd34), which is not read"
            ),
            Self::Header => write!(f, "a capture that ends inside of its header"),
            Self::Version(version) => {
                write!(f, "a capture of a version that is not read, {version}")
            }
            Self::Link(link) => write!(
                f,
                "a capture of link type {link}; Ethernet (1), loopback (0, 108), raw IP (101) and Linux cooked (113, 276) are read"
            ),
        }
    }
}

/// A packet as it was captured.
#[derive(Clone, Copy, Debug, PartialEq, Eq)]
pub struct Packet<'a> {
    /// How it is wrapped, or the number of a link type that is not read.
    pub link: Result<LinkType, u32>,
    /// Since 1970.
    pub time: Duration,
    /// What was captured of it, and its length on the wire.
    pub bytes: &'a [u8],
    pub length: usize,
}

/// How the packets end, where they do not end as they should.
#[derive(Clone, Copy, Debug, PartialEq, Eq)]
pub enum Damage {
    /// Inside of the packet with this number.
    Cut(usize),
    /// The packet with this number has a length that none has.
    Length(usize, u32),
    /// Something behind the packet with this number is cut or has a wrong
    /// length.
    Block(usize),
}

impl fmt::Display for Damage {
    fn fmt(&self, f: &mut fmt::Formatter<'_>) -> fmt::Result {
        match self {
            Self::Cut(number) => write!(f, "the capture ends inside of packet {number}"),
            Self::Length(number, length) => write!(
                f,
                "the capture is damaged: packet {number} claims {length} bytes; nothing behind it is read"
            ),
            Self::Block(number) => write!(
                f,
                "the capture is cut or damaged behind packet {number}; nothing behind that is read"
            ),
        }
    }
}

/// Whether a file that begins with these bytes is meant to be a capture.
pub fn recognised(front: &[u8]) -> bool {
    pcap::recognised(front) || pcapng::recognised(front)
}

/// The packets of a capture, one after the other.
#[derive(Clone, Debug)]
pub enum Packets<'a> {
    Pcap(Pcap<'a>),
    Pcapng(Pcapng<'a>),
}

impl<'a> Packets<'a> {
    pub fn open(file: &'a [u8]) -> Result<Self, Unreadable> {
        match pcapng::recognised(file) {
            true => Pcapng::open(file).map(Self::Pcapng),
            false => Pcap::open(file).map(Self::Pcap),
        }
    }

    /// How the packets ended.
    pub fn damage(&self) -> Option<Damage> {
        match self {
            Self::Pcap(packets) => packets.damage,
            Self::Pcapng(packets) => packets.damage,
        }
    }
}

impl<'a> Iterator for Packets<'a> {
    type Item = Packet<'a>;

    fn next(&mut self) -> Option<Packet<'a>> {
        match self {
            Self::Pcap(packets) => packets.next(),
            Self::Pcapng(packets) => packets.next(),
        }
    }
}
