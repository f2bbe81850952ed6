//! A capture: its packets, and the TCP connections that they are of.

mod file;
mod packet;
mod pcap;
mod pcapng;
mod tcp;
#[cfg(test)]
mod tests;
#[cfg(test)]
pub mod write;

pub use file::{recognised, Damage, Unreadable};
pub use tcp::{Counts, Direction, Gap, Run};

use file::Packets;
use packet::{Segment, Skipped};
use std::collections::{BTreeSet, HashMap};
use std::net::SocketAddr;
use std::time::Duration;

/// A TCP connection; the side at place 0 was seen first.
#[derive(Clone, Debug)]
pub struct Connection<'a> {
    pub ends: [SocketAddr; 2],
    /// What each side sent.
    pub directions: [Direction<'a>; 2],
}

/// What a capture has.
#[derive(Clone, Debug, Default)]
pub struct Capture<'a> {
    /// In the order of their first packets.
    pub connections: Vec<Connection<'a>>,
    pub packets: u64,
    /// Packets without TCP over IP, fragments, and malformed packets.
    pub others: u64,
    pub fragments: u64,
    pub malformed: u64,
    /// Link types of packets that are not read.
    pub links: BTreeSet<u32>,
    pub damage: Option<Damage>,
    /// When its first packet was captured.
    pub began: Option<Duration>,
}

impl<'a> Capture<'a> {
    /// Reads a whole capture.
    pub fn read(file: &'a [u8]) -> Result<Self, Unreadable> {
        let mut packets = Packets::open(file)?;
        let mut capture = Self::default();
        // Which connection two addresses have at the time, the lower first.
        let mut current = HashMap::new();
        for packet in packets.by_ref() {
            capture.packets += 1;
            capture.began.get_or_insert(packet.time);
            let link = packet.link.map_err(|number| {
                capture.links.insert(number);
                Skipped::Other
            });
            match link.and_then(|link| packet::segment(link, packet.bytes, packet.length)) {
                Ok(segment) => capture.take(&segment, packet.time, &mut current),
                Err(Skipped::Other) => capture.others += 1,
                Err(Skipped::Fragment) => capture.fragments += 1,
                Err(Skipped::Malformed) => capture.malformed += 1,
            }
        }
        capture.damage = packets.damage();
        Ok(capture)
    }

    fn take(
        &mut self,
        segment: &Segment<'a>,
        time: Duration,
        current: &mut HashMap<[SocketAddr; 2], usize>,
    ) {
        let mut key = [segment.from, segment.to];
        key.sort_unstable();
        let known = current.get(&key).copied();
        let fits = known.filter(|known| !self.connections[*known].is_over(segment));
        let index = fits.unwrap_or_else(|| {
            self.connections.push(Connection {
                ends: [segment.from, segment.to],
                directions: Default::default(),
            });
            self.connections.len() - 1
        });
        current.insert(key, index);
        self.connections[index].take(segment, time);
    }
}

impl<'a> Connection<'a> {
    /// Which side a segment is from.
    fn side(&self, segment: &Segment) -> usize {
        usize::from(segment.from != self.ends[0])
    }

    /// Whether a segment begins another connection of the same addresses.
    fn is_over(&self, segment: &Segment) -> bool {
        segment.syn && self.directions[self.side(segment)].is_reused(segment.sequence)
    }

    fn take(&mut self, segment: &Segment<'a>, time: Duration) {
        let side = self.side(segment);
        self.directions[side].take(segment, time);
        if let Some(number) = segment.acknowledged {
            self.directions[1 - side].reach(number);
        }
    }
}
