//! The format of tcpdump: a header of 24 bytes, then packets, each with a
//! header of 16 bytes, in the byte order of the machine that wrote them.

use super::file::{Damage, Order, Packet, Unreadable};
use super::packet::LinkType;
use std::time::Duration;

/// Bytes of the file's header and of a packet's.
const FILE_HEADER: usize = 24;
const PACKET_HEADER: usize = 16;

/// No packet is longer, whatever length a capture was set to.
const LONGEST_PACKET: u32 = 262_144;

/// The first four bytes, for times in microseconds and in nanoseconds.
const MICROSECONDS: u32 = 0xA1B2_C3D4;
const NANOSECONDS: u32 = 0xA1B2_3C4D;

/// A format of its own, with other packet headers.
const MODIFIED: u32 = 0xA1B2_CD34;

/// The byte order of a file and its first number, if it is of this format.
fn magic(file: &[u8]) -> Option<(Order, u32)> {
    let magics = [MICROSECONDS, NANOSECONDS, MODIFIED];
    [Order::Little, Order::Big].into_iter().find_map(|order| {
        let magic = order.word(file, 0)?;
        magics.contains(&magic).then_some((order, magic))
    })
}

/// Whether a file that begins with these bytes is of this format.
pub fn recognised(front: &[u8]) -> bool {
    magic(front).is_some()
}

/// The packets of a file.
#[derive(Clone, Debug)]
pub struct Pcap<'a> {
    left: &'a [u8],
    order: Order,
    link: LinkType,
    /// Nanoseconds in a unit of the times' fractions.
    unit: u32,
    longest: u32,
    /// Packets so far.
    number: usize,
    pub damage: Option<Damage>,
}

impl<'a> Pcap<'a> {
    /// Reads the file's header.
    pub fn open(file: &'a [u8]) -> Result<Self, Unreadable> {
        let (header, left) = file
            .split_at_checked(FILE_HEADER)
            .ok_or(Unreadable::Header)?;
        let (order, magic) = magic(header).ok_or(Unreadable::Header)?;
        let unit = match magic {
            MODIFIED => return Err(Unreadable::Modified),
            NANOSECONDS => 1,
            _ => 1_000,
        };
        let word = |place| order.word(header, place).ok_or(Unreadable::Header);
        match order.half(header, 4) {
            Some(2) => {}
            version => return Err(Unreadable::Version(version.unwrap_or(0))),
        }
        // The upper half says how long the packets' own checksums are.
        let link = word(20)? & 0xFFFF;
        Ok(Self {
            left,
            order,
            link: LinkType::from_number(link).ok_or(Unreadable::Link(link))?,
            unit,
            longest: word(16)?.max(LONGEST_PACKET),
            number: 0,
            damage: None,
        })
    }

    /// The next packet and what is left behind it.
    fn packet(&self) -> Result<(Packet<'a>, &'a [u8]), Damage> {
        let cut = Damage::Cut(self.number);
        let (header, behind) = self.left.split_at_checked(PACKET_HEADER).ok_or(cut)?;
        let word = |place| self.order.word(header, place).ok_or(cut);
        let captured = word(8)?;
        if captured > self.longest {
            return Err(Damage::Length(self.number, captured));
        }
        let (bytes, left) = behind.split_at_checked(captured as usize).ok_or(cut)?;
        let fraction = u64::from(word(4)?) * u64::from(self.unit);
        let packet = Packet {
            link: Ok(self.link),
            time: Duration::from_secs(word(0)?.into()) + Duration::from_nanos(fraction),
            bytes,
            length: (word(12)? as usize).max(bytes.len()),
        };
        Ok((packet, left))
    }
}

impl<'a> Iterator for Pcap<'a> {
    type Item = Packet<'a>;

    fn next(&mut self) -> Option<Packet<'a>> {
        if self.left.is_empty() {
            return None;
        }
        self.number += 1;
        match self.packet() {
            Ok((packet, left)) => {
                self.left = left;
                Some(packet)
            }
            Err(damage) => {
                self.left = &[];
                self.damage = Some(damage);
                None
            }
        }
    }
}
