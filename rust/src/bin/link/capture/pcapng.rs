//! The format of Wireshark: blocks, each with its kind and its length in front
//! and the length again behind. Sections have a byte order and interfaces.

use super::file::{Damage, Order, Packet, Unreadable};
use super::packet::LinkType;
use std::time::Duration;

/// Kinds of blocks; the first is alike in both byte orders.
const SECTION: u32 = 0x0A0D_0D0A;
const INTERFACE: u32 = 1;
const OLD_PACKET: u32 = 2;
const SIMPLE_PACKET: u32 = 3;
const PACKET: u32 = 6;

/// The first number of a section.
const MAGIC: u32 = 0x1A2B_3C4D;

/// The option of an interface that says what a unit of its times is.
const RESOLUTION: u16 = 9;

/// Whether a file that begins with these bytes is of this format.
pub fn recognised(front: &[u8]) -> bool {
    Order::Little.word(front, 0) == Some(SECTION)
}

/// Where packets were captured.
#[derive(Clone, Copy, Debug)]
struct Interface {
    link: Result<LinkType, u32>,
    /// The most bytes that are captured of a packet; 0 for no limit.
    most: u32,
    /// Units of its times in a second.
    units: u64,
}

/// The packets of a file.
#[derive(Clone, Debug)]
pub struct Pcapng<'a> {
    left: &'a [u8],
    order: Order,
    /// Those of the section.
    interfaces: Vec<Interface>,
    /// Packets so far.
    number: usize,
    pub damage: Option<Damage>,
}

impl<'a> Pcapng<'a> {
    pub fn open(file: &'a [u8]) -> Result<Self, Unreadable> {
        let order = order(file).ok_or(Unreadable::Header)?;
        match order.half(file, 12) {
            Some(1) => {}
            Some(version) => return Err(Unreadable::Version(version)),
            None => return Err(Unreadable::Header),
        }
        Ok(Self {
            left: file,
            order,
            interfaces: Vec::new(),
            number: 0,
            damage: None,
        })
    }

    /// Takes the next block: its kind, and what is inside.
    fn block(&mut self) -> Option<(u32, &'a [u8])> {
        let kind = self.order.word(self.left, 0)?;
        if kind == SECTION {
            self.order = order(self.left)?;
            self.interfaces.clear();
        }
        let length = self.order.word(self.left, 4)?;
        // Blocks fill up words, and the length is said twice.
        let (block, left) = self.left.split_at_checked(length as usize)?;
        let inside = block.len().checked_sub(12)?;
        let again = self.order.word(block, 8 + inside)?;
        (length % 4 == 0 && again == length).then_some(())?;
        self.left = left;
        Some((kind, &block[8..8 + inside]))
    }

    /// The interface that a block describes.
    fn interface(&self, block: &[u8]) -> Option<Interface> {
        let number = self.order.half(block, 0)?.into();
        Some(Interface {
            link: LinkType::from_number(number).ok_or(number),
            most: self.order.word(block, 4)?,
            units: self.units(block.get(8..)?),
        })
    }

    /// Units of time in a second, by the options of an interface.
    fn units(&self, mut options: &[u8]) -> u64 {
        while let Some(code) = self.order.half(options, 0) {
            let length = usize::from(self.order.half(options, 2).unwrap_or(0));
            let value = options.get(4..4 + length).unwrap_or(&[]);
            if let (RESOLUTION, [resolution]) = (code, value) {
                let power = u32::from(resolution & 0x7F);
                let base: u64 = if resolution & 0x80 == 0 { 10 } else { 2 };
                return base.checked_pow(power).unwrap_or(u64::MAX);
            }
            options = options.get(4 + length.next_multiple_of(4)..).unwrap_or(&[]);
        }
        1_000_000
    }

    /// The packet in a block, if it is one.
    fn packet(&self, kind: u32, block: &'a [u8]) -> Option<Packet<'a>> {
        let word = |place| self.order.word(block, place);
        let interface = match kind {
            PACKET => word(0)?,
            OLD_PACKET => self.order.half(block, 0)?.into(),
            _ => 0,
        };
        let interface = self.interfaces.get(interface as usize)?;
        if kind == SIMPLE_PACKET {
            let length = word(0)?;
            let most = if interface.most == 0 {
                u32::MAX
            } else {
                interface.most
            };
            return Some(Packet {
                link: interface.link,
                time: Duration::ZERO,
                bytes: block.get(4..)?.get(..length.min(most) as usize)?,
                length: length as usize,
            });
        }
        let (captured, length) = (word(12)? as usize, word(16)? as usize);
        let units = u64::from(word(4)?) << 32 | u64::from(word(8)?);
        Some(Packet {
            link: interface.link,
            time: time(units, interface.units),
            bytes: block.get(20..)?.get(..captured)?,
            length: length.max(captured),
        })
    }
}

/// The byte order of the section that begins a file.
fn order(file: &[u8]) -> Option<Order> {
    let orders = [Order::Little, Order::Big];
    orders
        .into_iter()
        .find(|order| order.word(file, 8) == Some(MAGIC))
}

/// So many units since 1970.
fn time(units: u64, in_a_second: u64) -> Duration {
    let rest = u128::from(units % in_a_second) * 1_000_000_000 / u128::from(in_a_second);
    Duration::new(units / in_a_second, rest as u32)
}

impl<'a> Iterator for Pcapng<'a> {
    type Item = Packet<'a>;

    fn next(&mut self) -> Option<Packet<'a>> {
        while !self.left.is_empty() {
            let block = self.block();
            let whole = match block {
                Some((PACKET | OLD_PACKET | SIMPLE_PACKET, _)) => {
                    let packet = block.and_then(|(kind, block)| self.packet(kind, block));
                    if packet.is_some() {
                        self.number += 1;
                        return packet;
                    }
                    false
                }
                Some((INTERFACE, block)) => {
                    let interface = self.interface(block);
                    self.interfaces.extend(interface);
                    interface.is_some()
                }
                Some(_) => true,
                None => false,
            };
            if !whole {
                self.left = &[];
                self.damage = Some(Damage::Block(self.number));
            }
        }
        None
    }
}
