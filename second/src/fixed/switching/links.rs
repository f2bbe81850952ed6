//! Links that go over to secure mode, stored with the secrets of their switch.

use crate::cutting::Course;
use crate::definition::Switch;
use crate::gcm::{KEY_LENGTH, NONCE_LENGTH};
use crate::recordings::{Link, OWN, STORE};
use crate::records::{Call, Record, SwitchingRecord, Try};
use crate::secure::Secrets;

/// A stored link: its bytes, the sizes in which they arrive, and a line with the
/// number of the frame after which its reader switches, the key, the nonce of
/// this direction and that of the other one.
pub struct Stored {
    pub name: &'static str,
    bytes: &'static [u8],
    cuts: &'static str,
    secrets: &'static str,
}

macro_rules! stored {
    ($name:literal) => {
        Stored {
            name: $name,
            bytes: include_bytes!(concat!(
                "../../../../tests/known/switch/links/",
                $name,
                ".bin"
            )),
            cuts: include_str!(concat!(
                "../../../../tests/known/switch/links/",
                $name,
                ".cuts"
            )),
            secrets: include_str!(concat!(
                "../../../../tests/known/switch/links/",
                $name,
                ".secrets"
            )),
        }
    };
}

pub const LINKS: [Stored; 5] = [
    stored!("secure_cx_c2s"),
    stored!("secure_cx_s2c"),
    stored!("secure_put16000_c2s"),
    stored!("secure_put16000_s2c"),
    stored!("secure_shapes"),
];

fn hex<const N: usize>(word: &str) -> [u8; N] {
    assert_eq!(word.len(), 2 * N, "as many digits as it needs");
    std::array::from_fn(|place| {
        let digits = &word[2 * place..2 * place + 2];
        u8::from_str_radix(digits, 16).expect("hex digits")
    })
}

impl Stored {
    pub fn link(&self) -> Link {
        let sizes = self.cuts.lines().map(|size| size.parse().expect("a size"));
        let link = Link::new(self.bytes.to_vec(), sizes);
        link.unwrap_or_else(|| panic!("{}: its sizes do not make it up", self.name))
    }

    /// The frame after which the switch is made, and what it is made with.
    pub fn switch(&self) -> (usize, Secrets) {
        let words: Vec<&str> = self.secrets.split_whitespace().collect();
        let [after, key, receiving, sending] = words[..] else {
            panic!("four words");
        };
        let secrets = Secrets {
            key: hex::<KEY_LENGTH>(key),
            receiving: hex::<NONCE_LENGTH>(receiving),
            sending: hex::<NONCE_LENGTH>(sending),
        };
        (after.parse().expect("a number"), secrets)
    }

    fn course(&self) -> Course {
        let (after, secrets) = self.switch();
        let switch = Switch {
            after,
            key: secrets.key,
            nonce: secrets.receiving,
            opened: 0,
        };
        Course::switched(OWN, STORE, self.bytes, Some(&switch))
    }

    fn record(&self, pieces: &[u32]) -> Record {
        let mut calls = self.course().calls(pieces, 0);
        calls.push(Call::Receive(0));
        let (_, secrets) = self.switch();
        Record::Switching(SwitchingRecord {
            own: OWN,
            store: STORE,
            tries: vec![Try { secrets, opened: 0 }],
            calls,
            stream: self.bytes.to_vec(),
        })
    }
}

/// Each link whole, and by the sizes in which it arrives.
pub fn links() -> Vec<Record> {
    let both = |stored: &Stored| {
        let course = stored.course();
        let cuts = stored.link().cuts;
        [
            stored.record(&course.whole()),
            stored.record(&course.pieces(cuts)),
        ]
    };
    LINKS.iter().flat_map(both).collect()
}

/// Each link byte by byte, where that needs few enough calls.
pub fn finely() -> Vec<Record> {
    let fine = |stored: &Stored| stored.record(&stored.link().finely(&stored.course()));
    LINKS.iter().map(fine).collect()
}

#[cfg(test)]
mod tests;
