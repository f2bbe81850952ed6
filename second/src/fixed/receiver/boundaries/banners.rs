//! Refusals 1 to 4 and 16, and how the revision is chosen.

use crate::banner::Features;
use crate::fixed::receiver::case::{whole, Case, OWN};
use crate::records::Record;
use crate::wire::Revision;

/// A banner and a frame of the revision the two sides come to.
fn link(own: Features, peer: Features) -> Case {
    let revision = own.judge_peer(&peer).unwrap_or(Revision::Msgr21);
    let frame = whole(revision, &[4, 3]);
    Case {
        own,
        ..Case::stream([peer.banner(), frame.bytes].concat())
    }
}

/// Own features in all pairs.
fn starts() -> Vec<Record> {
    let bits = [0, 1, 2, 3, 1 << 32, 1 << 63, u64::MAX];
    let mut records = Vec::new();
    for supported in bits {
        for required in bits {
            let own = Features::new(supported, required);
            records.push(link(own, Features::new(1, 0)).uncut());
        }
    }
    records
}

/// A stream that begins as given; a good banner's rest and a frame follow.
fn begun(head: &[u8]) -> Case {
    let mut case = link(OWN, OWN);
    case.stream[..head.len()].copy_from_slice(head);
    case
}

/// Each bit of the first eight bytes, and streams that end around the eighth.
fn magics() -> Vec<Record> {
    let mut records = Vec::new();
    for place in 0..8 {
        for bit in 0..8 {
            let mut head = *b"ceph v2\n";
            head[place] ^= 1 << bit;
            records.push(begun(&head).edges());
        }
    }
    for head in [
        b"ceph v2\n",
        b"xeph v2\n",
        b"ceph v1\n",
        b"\0\0\0\0\0\0\0\0",
    ] {
        for length in 0..=10 {
            let mut case = begun(head);
            case.stream.truncate(length);
            records.push(case.uncut());
        }
    }
    records
}

/// Payload lengths on both sides of the smallest and the largest, 16 with its
/// bytes swapped, and lengths of which one byte alone would be good.
fn payload_lengths() -> Vec<Record> {
    let lengths: [u16; 16] = [
        0, 1, 15, 16, 17, 255, 256, 271, 272, 1_023, 1_024, 1_025, 1_040, 4_096, 32_784, 65_535,
    ];
    let mut records = Vec::new();
    for length in lengths {
        let frame = whole(Revision::Msgr21, &[4, 3]);
        let mut banner = OWN.banner();
        banner[8..10].copy_from_slice(&length.to_le_bytes());
        // Bytes that would be required features if they were not skipped.
        banner.resize(10 + usize::from(length.min(1_100)), 0xFF);
        let case = Case::stream([banner, frame.bytes].concat());
        records.extend(case.both());
        let mut early = case.clone();
        early.stream.truncate(9 + usize::from(length));
        records.push(early.edges());
    }
    records
}

/// Features that are refused in front of a longer payload: its last byte tells.
fn refused_long_payloads() -> Vec<Record> {
    let pairs = [
        (OWN, Features::new(1, 0x14)),
        (Features::new(1, 1), Features::new(2, 0)),
    ];
    let mut records = Vec::new();
    for (own, peer) in pairs {
        for length in [17u16, 40, 1_024] {
            let mut banner = peer.banner();
            banner[8..10].copy_from_slice(&length.to_le_bytes());
            banner.resize(10 + usize::from(length), 0);
            let stream = Case::stream(banner);
            records.extend(Case { own, ..stream }.both());
        }
    }
    records
}

/// Every choice of faults among 1, 2, 3 and 4, so that each pair, and so the
/// order, shows.
fn orders() -> Vec<Record> {
    let mut records = Vec::new();
    for faults in 0..16u32 {
        let has = |bit: u32| faults >> bit & 1 == 1;
        let own = Features::new(1, u64::from(has(3)));
        let peer = Features::new(u64::from(!has(3)), if has(2) { 2 } else { 0 });
        let mut case = link(own, peer);
        case.stream[0] ^= u8::from(has(0));
        for length in if has(1) { [15, 1_025] } else { [16, 16] } {
            case.stream[8..10].copy_from_slice(&u16::to_le_bytes(length));
            records.push(case.edges());
        }
    }
    records
}

/// All pairs of bits that either side may have.
fn features() -> Vec<Record> {
    let own = [(0, 0), (1, 0), (1, 1)];
    let bits = [0, 1, 2, 3, 0x14, 1 << 63, u64::MAX - 1, u64::MAX];
    let mut records = Vec::new();
    for (supported, required) in own {
        let own = Features::new(supported, required);
        for peer_supported in bits {
            for peer_required in bits {
                let peer = Features::new(peer_supported, peer_required);
                records.push(link(own, peer).edges());
            }
        }
    }
    records
}

pub fn banners() -> Vec<Record> {
    let makers = [
        starts,
        magics,
        payload_lengths,
        refused_long_payloads,
        orders,
        features,
    ];
    makers.into_iter().flat_map(|make| make()).collect()
}
