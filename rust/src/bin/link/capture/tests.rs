use super::write::{pcapng, Sent, Writer, ACK, FIN, RESET, SYN};
use super::*;
use crate::tests::Random;

fn ends(version: u8) -> [SocketAddr; 2] {
    let ends = match version {
        4 => ["10.1.2.3:6800", "10.1.2.4:50000"],
        _ => ["[2001:db8::1]:6800", "[2001:db8::2]:50000"],
    };
    ends.map(|end| end.parse().expect("an address"))
}

/// A connection that is written: its ends, and the sequence number of each
/// side's SYN.
#[derive(Clone, Copy)]
struct Conversation {
    ends: [SocketAddr; 2],
    first: [u32; 2],
}

impl Conversation {
    fn new(version: u8) -> Self {
        let first = [1_000, 5_000];
        let ends = ends(version);
        Self { ends, first }
    }

    /// A segment from a side, at a place of its stream.
    fn sent<'a>(&self, side: usize, place: u32, flags: u8, bytes: &'a [u8]) -> Sent<'a> {
        Sent {
            from: self.ends[side],
            to: self.ends[1 - side],
            sequence: self.first[side].wrapping_add(1).wrapping_add(place),
            acknowledged: self.first[1 - side].wrapping_add(1),
            flags,
            bytes,
        }
    }

    /// Both SYNs.
    fn begin(&self, writer: &mut Writer) {
        for side in [0, 1] {
            let flags = if side == 0 { SYN } else { SYN | ACK };
            let mut sent = self.sent(side, 0, flags, &[]);
            sent.sequence = self.first[side];
            writer.send(&sent);
        }
    }

    fn send(&self, writer: &mut Writer, side: usize, place: u32, bytes: &[u8]) {
        writer.send(&self.sent(side, place, ACK, bytes));
    }
}

/// The bytes of a run, one behind the other.
fn bytes(run: &Run) -> Vec<u8> {
    run.pieces.concat()
}

/// The first connection's first direction in a capture.
fn first(file: &[u8]) -> Direction<'_> {
    let capture = Capture::read(file).expect("a capture");
    assert_eq!(capture.connections.len(), 1);
    capture.connections[0].directions[0].clone()
}

/// The link types that are read.
const LINKS: [u32; 7] = [0, 1, 101, 108, 113, 276, 12];

#[test]
fn every_way_to_wrap_a_segment() {
    let mut ways = 0;
    for link in LINKS {
        for way in 0..64 {
            let version = if way & 1 == 0 { 4 } else { 6 };
            let mut writer = Writer::new(link);
            writer.big = way & 2 != 0;
            writer.nanoseconds = way & 4 != 0;
            writer.vlans = way >> 3 & 3;
            writer.extensions = way & 32 != 0;
            let conversation = Conversation::new(version);
            conversation.begin(&mut writer);
            conversation.send(&mut writer, 0, 0, b"ceph");
            conversation.send(&mut writer, 1, 0, b"answer");
            conversation.send(&mut writer, 0, 4, b" v2\n");
            let capture = Capture::read(&writer.file).expect("a capture");
            assert_eq!(capture.connections.len(), 1, "{link} {way}");
            assert_eq!((capture.packets, capture.damage), (5, None));
            let Connection { ends, directions } = &capture.connections[0];
            assert_eq!(*ends, conversation.ends);
            let runs = directions.each_ref().map(Direction::run);
            assert_eq!(runs[0].pieces, [b"ceph", b" v2\n"], "{link} {way}");
            assert_eq!(runs[1].pieces, [b"answer"]);
            assert_eq!((runs[0].gap, runs[1].gap), (None, None));
            let (start, end) = directions[0].times.expect("packets");
            assert_eq!((end - start).as_micros(), 2_000);
            ways += 1;
        }
    }
    assert_eq!(ways, 64 * LINKS.len());
}

/// What fills up a short packet on Ethernet is no part of a segment.
#[test]
fn short_packets_on_ethernet() {
    let conversation = Conversation::new(4);
    let mut writer = Writer::new(1);
    writer.plain = true;
    conversation.begin(&mut writer);
    conversation.send(&mut writer, 0, 0, b"");
    conversation.send(&mut writer, 0, 0, b"abc");
    conversation.send(&mut writer, 0, 3, b"def");
    assert!(writer.file.ends_with(b"defUUU"));
    let direction = first(&writer.file);
    assert_eq!(direction.run().pieces, [b"abc", b"def"]);
    assert_eq!((direction.counts.segments, direction.run().gap), (2, None));
}

#[test]
fn lengths_that_are_left_out() {
    for (version, link) in [(4, 113), (6, 276), (4, 101), (6, 0)] {
        let mut writer = Writer::new(link);
        writer.unsaid = true;
        let conversation = Conversation::new(version);
        conversation.begin(&mut writer);
        conversation.send(&mut writer, 0, 0, &[7; 70_000]);
        assert_eq!(bytes(&first(&writer.file).run()), vec![7; 70_000]);
    }
}

#[test]
fn sequence_numbers_wrap_around() {
    let mut conversation = Conversation::new(4);
    conversation.first[0] = u32::MAX - 5;
    let mut writer = Writer::new(1);
    conversation.begin(&mut writer);
    let stream: Vec<u8> = (0..40).collect();
    conversation.send(&mut writer, 0, 10, &stream[10..20]);
    conversation.send(&mut writer, 0, 0, &stream[..10]);
    conversation.send(&mut writer, 0, 2, &stream[2..40]);
    let direction = first(&writer.file);
    assert_eq!(bytes(&direction.run()), stream);
    let counts = direction.counts;
    assert_eq!(
        (counts.segments, counts.out_of_order, counts.duplicates),
        (3, 1, 0)
    );
    assert_eq!(counts.repeated_bytes, 18);
}

/// More than four times as many bytes as there are sequence numbers, a few of
/// which are really sent.
#[test]
fn a_stream_longer_than_all_sequence_numbers() {
    let conversation = Conversation::new(4);
    let mut direction = Direction::default();
    let piece = vec![1; 1 << 20];
    let mut place: u64 = 0;
    for _ in 0..17_000 {
        let segment = Segment {
            from: conversation.ends[0],
            to: conversation.ends[1],
            sequence: place as u32,
            acknowledged: None,
            syn: false,
            fin: false,
            reset: false,
            bytes: &piece,
            missing: 0,
        };
        direction.take(&segment, Duration::ZERO);
        place += piece.len() as u64;
    }
    let run = direction.run();
    assert_eq!((run.length, run.gap), (place, None));
    assert!(place > 4 << 32);
}

#[test]
fn bytes_that_come_again() {
    let conversation = Conversation::new(6);
    let mut writer = Writer::new(113);
    conversation.begin(&mut writer);
    conversation.send(&mut writer, 0, 0, b"abcdef");
    conversation.send(&mut writer, 0, 0, b"abcdef");
    conversation.send(&mut writer, 0, 2, b"cXXfgh");
    conversation.begin(&mut writer);
    conversation.send(&mut writer, 0, 8, b"ij");
    let direction = first(&writer.file);
    let run = direction.run();
    assert_eq!(run.pieces, [&b"abcdef"[..], b"gh", b"ij"]);
    let counts = direction.counts;
    assert_eq!((counts.segments, counts.duplicates), (4, 1));
    assert_eq!((counts.repeated_bytes, counts.conflicting_bytes), (10, 2));
    assert_eq!((counts.out_of_order, counts.out_of_window), (0, 0));
}

#[test]
fn segments_that_come_late() {
    let conversation = Conversation::new(4);
    let mut writer = Writer::new(1);
    conversation.begin(&mut writer);
    conversation.send(&mut writer, 0, 0, b"abc");
    conversation.send(&mut writer, 0, 6, b"ghi");
    // Again, and no later for that; then what was missing.
    conversation.send(&mut writer, 0, 0, b"abc");
    conversation.send(&mut writer, 0, 3, b"def");
    conversation.send(&mut writer, 0, 9, b"jkl");
    let direction = first(&writer.file);
    assert_eq!(bytes(&direction.run()), b"abcdefghijkl");
    let counts = direction.counts;
    assert_eq!(
        (
            counts.out_of_order,
            counts.duplicates,
            counts.repeated_bytes
        ),
        (1, 1, 3)
    );
}

#[test]
fn bytes_that_are_missing() {
    let conversation = Conversation::new(4);
    let mut writer = Writer::new(1);
    conversation.begin(&mut writer);
    conversation.send(&mut writer, 0, 0, b"abc");
    conversation.send(&mut writer, 0, 5, b"fg");
    conversation.send(&mut writer, 0, 7, b"hij");
    let run = first(&writer.file).run();
    assert_eq!((bytes(&run), run.length), (b"abc".to_vec(), 3));
    let gap = Gap::Inside {
        missing: 2,
        pieces: 2,
        bytes: 5,
    };
    assert_eq!(run.gap, Some(gap));
    // They come in the end.
    conversation.send(&mut writer, 0, 2, b"cdefg");
    let run = first(&writer.file).run();
    assert_eq!((bytes(&run), run.gap), (b"abcdefghij".to_vec(), None));
}

#[test]
fn bytes_that_are_missing_at_the_beginning() {
    let conversation = Conversation::new(4);
    let mut writer = Writer::new(1);
    conversation.begin(&mut writer);
    conversation.send(&mut writer, 0, 3, b"def");
    let direction = first(&writer.file);
    let run = direction.run();
    assert!(direction.has_bytes());
    assert_eq!((run.pieces.len(), run.length), (0, 0));
    assert!(matches!(run.gap, Some(Gap::Inside { missing: 3, .. })));
}

#[test]
fn bytes_that_are_missing_at_the_end() {
    let conversation = Conversation::new(4);
    let started = || {
        let mut writer = Writer::new(1);
        conversation.begin(&mut writer);
        conversation.send(&mut writer, 0, 0, b"abc");
        writer
    };
    let gap = |writer: &Writer| first(&writer.file).run().gap;
    let end = |missing| Some(Gap::AtTheEnd { missing });

    let mut closed = started();
    closed.send(&conversation.sent(0, 3, ACK | FIN, &[]));
    assert_eq!(gap(&closed), None);
    assert!(first(&closed.file).has_fin());

    let mut closed = started();
    closed.send(&conversation.sent(0, 10, ACK | FIN, &[]));
    assert_eq!(gap(&closed), end(7));

    // What the other side acknowledged, where the last may be a FIN.
    for (acknowledged, missing) in [(3, None), (4, None), (5, end(1)), (1_003, end(999))] {
        let mut writer = started();
        let mut sent = conversation.sent(1, 0, ACK, &[]);
        sent.acknowledged = conversation.first[0] + 1 + acknowledged;
        writer.send(&sent);
        assert_eq!(gap(&writer), missing);
    }

    // An acknowledgement of the side's own shows what it has sent.
    let mut writer = started();
    conversation.send(&mut writer, 0, 9, b"");
    assert_eq!(gap(&writer), end(5));
    let mut writer = started();
    writer.send(&conversation.sent(0, 3, ACK | FIN, &[]));
    conversation.send(&mut writer, 0, 4, b"");
    assert_eq!(gap(&writer), None);
}

#[test]
fn packets_that_are_not_captured_whole() {
    let conversation = Conversation::new(4);
    let mut writer = Writer::new(1);
    writer.most = 14 + 24 + 32 + 10;
    conversation.begin(&mut writer);
    conversation.send(&mut writer, 0, 0, &[1; 10]);
    conversation.send(&mut writer, 0, 10, &[2; 25]);
    let direction = first(&writer.file);
    let run = direction.run();
    assert_eq!((run.length, direction.counts.truncated), (20, 1));
    assert_eq!(run.gap, Some(Gap::AtTheEnd { missing: 15 }));
    // Less than the fields of the headers that are looked at.
    for most in 0..14 + 24 + 14 {
        let mut writer = Writer::new(1);
        writer.most = most;
        conversation.send(&mut writer, 0, 0, &[1; 10]);
        let capture = Capture::read(&writer.file).expect("a capture");
        assert_eq!((capture.packets, capture.malformed), (1, 1), "{most}");
    }
}

#[test]
fn a_capture_from_the_middle_on() {
    let conversation = Conversation::new(4);
    let mut writer = Writer::new(101);
    conversation.send(&mut writer, 0, 8, b"later");
    conversation.send(&mut writer, 0, 0, b"ceph v2\n");
    let direction = first(&writer.file);
    assert!(!direction.has_syn());
    assert_eq!(bytes(&direction.run()), b"ceph v2\nlater");
    // And the SYN behind its bytes.
    conversation.begin(&mut writer);
    let direction = first(&writer.file);
    assert!(direction.has_syn());
    assert_eq!(bytes(&direction.run()), b"ceph v2\nlater");
}

#[test]
fn addresses_that_are_used_again() {
    let conversation = Conversation::new(4);
    let mut writer = Writer::new(1);
    conversation.begin(&mut writer);
    conversation.send(&mut writer, 0, 0, b"one");
    conversation.send(&mut writer, 1, 0, b"two");
    writer.send(&conversation.sent(1, 3, RESET, &[]));
    let mut again = conversation;
    again.first = [900_000, 800_000];
    again.begin(&mut writer);
    again.send(&mut writer, 1, 0, b"four");
    again.send(&mut writer, 0, 0, b"three");
    let capture = Capture::read(&writer.file).expect("a capture");
    let runs: Vec<[Vec<u8>; 2]> = capture
        .connections
        .iter()
        .map(|connection| connection.directions.each_ref().map(|d| bytes(&d.run())))
        .collect();
    let text = |words: [&str; 2]| words.map(|word| word.as_bytes().to_vec());
    assert_eq!(runs, [text(["one", "two"]), text(["three", "four"])]);
    assert!(capture.connections[0].directions[1].reset);
}

#[test]
fn segments_out_of_window() {
    let conversation = Conversation::new(4);
    let mut writer = Writer::new(1);
    conversation.begin(&mut writer);
    conversation.send(&mut writer, 0, 0, b"abc");
    conversation.send(&mut writer, 0, 1 << 31, b"xyz");
    conversation.send(&mut writer, 0, 3, b"def");
    let direction = first(&writer.file);
    assert_eq!(direction.counts.out_of_window, 1);
    assert_eq!(bytes(&direction.run()), b"abcdef");
}

#[test]
fn packets_that_are_left_out() {
    let conversation = Conversation::new(4);
    let mut writer = Writer::new(101);
    let good = writer.wrapped(&conversation.sent(0, 0, ACK, b"abc"));
    let changed = |place: usize, byte: u8| {
        let mut packet = good.clone();
        packet[place] = byte;
        packet
    };
    let with = |packet: &[u8]| {
        let mut writer = Writer::new(101);
        writer.packet(packet);
        let capture = Capture::read(&writer.file).expect("a capture");
        (capture.others, capture.fragments, capture.malformed)
    };
    writer.packet(&good);
    assert_eq!(with(&good), (0, 0, 0));
    assert_eq!(with(&[]), (0, 0, 1));
    // UDP, more fragments, a later fragment, no version, a short header.
    assert_eq!(with(&changed(9, 17)), (1, 0, 0));
    assert_eq!(with(&changed(6, 0x20)), (0, 1, 0));
    assert_eq!(with(&changed(7, 1)), (0, 1, 0));
    assert_eq!(with(&changed(0, 0x06)), (0, 0, 1));
    assert_eq!(with(&changed(0, 0x40)), (0, 0, 1));
    assert_eq!(with(&changed(0, 0x44)), (0, 0, 1));
    // A header longer than the packet; lengths too long and too short.
    assert_eq!(with(&changed(0, 0x4F)), (0, 0, 1));
    assert_eq!(with(&changed(2, 0x10)), (0, 0, 1));
    assert_eq!(with(&changed(3, 23)), (0, 0, 1));
    assert_eq!(with(&changed(3, 24 + 31)), (0, 0, 1));
    // TCP's header too short, and too long.
    assert_eq!(with(&changed(24 + 12, 0x00)), (0, 0, 1));
    assert_eq!(with(&changed(24 + 12, 0x40)), (0, 0, 1));
    assert_eq!(with(&changed(24 + 12, 0xF0)), (0, 0, 1));
}

#[test]
fn extension_headers_that_are_left_out() {
    let conversation = Conversation::new(6);
    let mut writer = Writer::new(101);
    writer.extensions = true;
    let good = writer.wrapped(&conversation.sent(0, 0, ACK, b"abc"));
    let with = |place: usize, byte: u8| {
        let mut packet = good.clone();
        packet[place] = byte;
        let mut writer = Writer::new(101);
        writer.packet(&packet);
        let capture = Capture::read(&writer.file).expect("a capture");
        (capture.others, capture.fragments, capture.malformed)
    };
    assert_eq!(with(7, 64), (0, 0, 0));
    // No next header, UDP, an encrypted payload.
    for next in [59, 17, 50] {
        assert_eq!(with(40, next), (1, 0, 0));
    }
    // A header that goes past the end, and fragments.
    assert_eq!(with(41, 255), (0, 0, 1));
    let fragment = 40 + 8 + 16 + 12;
    assert_eq!(with(fragment + 3, 1), (0, 1, 0));
    assert_eq!(with(fragment + 2, 1), (0, 1, 0));
    // Reserved bits are not looked at.
    assert_eq!(with(fragment + 3, 6), (0, 0, 0));
}

#[test]
fn other_protocols_on_the_link() {
    for (link, kind) in [(1, 12), (113, 14), (276, 0), (0, 0), (108, 3)] {
        let mut packet = vec![0; 60];
        packet[kind] = 9;
        let mut writer = Writer::new(link);
        writer.packet(&packet);
        let capture = Capture::read(&writer.file).expect("a capture");
        assert_eq!((capture.packets, capture.others), (1, 1), "{link}");
    }
    // VLAN tags up to the packet's end.
    let mut packet = vec![0; 12];
    (0..12).for_each(|_| packet.extend([0x81, 0x00, 0, 1]));
    let mut writer = Writer::new(1);
    writer.packet(&packet);
    let capture = Capture::read(&writer.file).expect("a capture");
    assert_eq!(capture.malformed, 1);
}

#[test]
fn files_that_cannot_be_read() {
    let mut writer = Writer::new(1);
    writer.begin();
    let good = writer.file;
    assert_eq!(Capture::read(&good).expect("a capture").packets, 0);
    let unreadable = |file: &[u8]| Capture::read(file).expect_err("nothing to be read");
    for length in 0..24 {
        assert_eq!(unreadable(&good[..length]), Unreadable::Header);
    }
    let changed = |place: usize, bytes: &[u8]| {
        let mut file = good.clone();
        file[place..place + bytes.len()].copy_from_slice(bytes);
        unreadable(&file)
    };
    assert_eq!(changed(0, b"\x34\xcd\xb2\xa1"), Unreadable::Modified);
    assert_eq!(changed(0, b"\xa1\xb2\xcd\x34"), Unreadable::Modified);
    assert_eq!(changed(4, b"\x01"), Unreadable::Version(1));
    assert_eq!(changed(20, b"\x69"), Unreadable::Link(105));
    // Only the lower half is the link type.
    let mut file = good.clone();
    file[22..].copy_from_slice(&[1, 0xF0]);
    assert!(Capture::read(&file).is_ok());
}

#[test]
fn files_that_are_cut_or_have_bad_lengths() {
    let conversation = Conversation::new(4);
    let mut writer = Writer::new(1);
    conversation.begin(&mut writer);
    let whole = writer.file.len();
    conversation.send(&mut writer, 0, 0, b"abc");
    for length in whole..writer.file.len() {
        let capture = Capture::read(&writer.file[..length]).expect("a capture");
        let damage = (length > whole).then_some(Damage::Cut(3));
        assert_eq!((capture.packets, capture.damage), (2, damage));
    }
    writer.file[whole + 8..whole + 12].fill(0xFF);
    let capture = Capture::read(&writer.file).expect("a capture");
    assert_eq!(capture.damage, Some(Damage::Length(3, u32::MAX)));
}

/// The same packets in the other format, with the same times.
#[test]
fn the_other_format() {
    let conversation = Conversation::new(6);
    let mut writer = Writer::new(113);
    conversation.begin(&mut writer);
    let stream: Vec<u8> = (0..200).collect();
    for (piece, bytes) in stream.chunks(7).enumerate() {
        conversation.send(&mut writer, piece % 2, piece as u32 / 2 * 7, bytes);
    }
    let whole = Capture::read(&writer.file).expect("a capture");
    for big in [false, true] {
        for simple in [false, true] {
            let other = pcapng(&writer.file, big, simple);
            let other = Capture::read(&other).expect("a capture");
            assert_eq!((other.packets, other.damage), (whole.packets, None));
            assert!(other.links.is_empty());
            let sides = whole.connections[0].directions.iter();
            for (a, b) in sides.zip(&other.connections[0].directions) {
                assert_eq!(a.run(), b.run());
                assert!(simple || a.times == b.times);
            }
        }
    }
}

/// Two sections, with different byte orders and link types.
#[test]
fn sections_of_the_other_format() {
    let conversation = Conversation::new(4);
    let mut file = Vec::new();
    for (link, big) in [(1, false), (113, true), (276, false)] {
        let mut writer = Writer::new(link);
        conversation.send(&mut writer, 0, link, b"abc");
        file.extend(pcapng(&writer.file, big, true));
    }
    let capture = Capture::read(&file).expect("a capture");
    assert_eq!((capture.packets, capture.malformed), (3, 0));
    assert_eq!(capture.connections[0].directions[0].counts.segments, 3);
    assert_eq!((capture.others, capture.damage), (0, None));
}

#[test]
fn the_other_format_damaged() {
    let conversation = Conversation::new(4);
    let mut writer = Writer::new(1);
    conversation.begin(&mut writer);
    conversation.send(&mut writer, 0, 0, b"abc");
    for big in [false, true] {
        let whole = pcapng(&writer.file, big, true);
        for length in 0..whole.len() {
            match Capture::read(&whole[..length]) {
                Ok(capture) => assert!(capture.packets < 3 && length >= 14),
                Err(error) => assert!(error == Unreadable::Header && length < 14),
            }
        }
        // Each byte of the lengths and kinds, and those of the interface.
        for place in 8..whole.len() {
            for byte in [0, 1, 0x7F, 0xFF] {
                let mut damaged = whole.clone();
                damaged[place] = byte;
                if let Ok(capture) = Capture::read(&damaged) {
                    assert!(capture.packets <= 3);
                }
            }
        }
    }
}

#[test]
fn the_other_format_with_other_fields() {
    let conversation = Conversation::new(4);
    let mut writer = Writer::new(1);
    conversation.begin(&mut writer);
    conversation.send(&mut writer, 0, 0, b"abc");
    for big in [false, true] {
        let whole = pcapng(&writer.file, big, true);
        let mut version = whole.clone();
        version[12..14].fill(7);
        let unreadable = Capture::read(&version).expect_err("another version");
        assert_eq!(unreadable, Unreadable::Version(0x0707));
        // A link type that is not read, and a length that is not said again.
        let mut other = whole.clone();
        other[28 + 8..28 + 10].fill(9);
        let capture = Capture::read(&other).expect("a capture");
        assert_eq!((capture.packets, capture.others), (3, 3));
        assert_eq!(capture.links, BTreeSet::from([0x0909]));
        let mut differing = whole;
        *differing.last_mut().expect("bytes") ^= 4;
        let capture = Capture::read(&differing).expect("a capture");
        let damage = Some(Damage::Block(2));
        assert_eq!((capture.packets, capture.damage), (2, damage));
    }
}

/// Units of time that an interface may have.
#[test]
fn units_of_time() {
    let conversation = Conversation::new(4);
    let mut writer = Writer::new(1);
    conversation.begin(&mut writer);
    let whole = pcapng(&writer.file, false, false);
    // The value of the option, behind the section and the other option.
    let place = 28 + 8 + 8 + 8 + 4;
    assert_eq!(whole[place], 6);
    let began = |resolution: u8| {
        let mut other = whole.clone();
        other[place] = resolution;
        let capture = Capture::read(&other).expect("a capture");
        capture.began.expect("packets")
    };
    let micros = 1_000_000_000;
    assert_eq!(began(6), Duration::from_micros(micros));
    assert_eq!(began(9), Duration::from_nanos(micros));
    assert_eq!(began(0), Duration::from_secs(micros));
    assert_eq!(
        began(0x80 | 10),
        Duration::from_millis(micros * 1_000 / 1_024)
    );
    assert_eq!(began(0x7F), Duration::ZERO);
    assert_eq!(began(0xFF), Duration::ZERO);
}

/// Streams cut at random into segments that overlap, come again and come in
/// another order: what comes out is the stream, up to the first byte that no
/// segment has.
#[test]
fn random_segments() {
    let mut random = Random(0x5EED_0001);
    for _ in 0..2_000 {
        let length = 1 + random.below(300);
        let stream: Vec<u8> = (0..length).map(|_| random.below(256) as u8).collect();
        let mut conversation = Conversation::new(4);
        conversation.first[0] = 0u32.wrapping_sub(random.below(400) as u32);
        let mut writer = Writer::new(LINKS[random.below(LINKS.len())]);
        let with_syn = random.below(2) == 0;
        if with_syn {
            conversation.begin(&mut writer);
        }
        let mut there = vec![false; length];
        let whole = random.below(4) > 0;
        let mut missing = if whole { 1 } else { 0 };
        let mut count = 0;
        while count < 20 || missing > 0 && there.contains(&false) {
            let start = random.below(length);
            let end = start + 1 + random.below((length - start).min(40));
            conversation.send(&mut writer, 0, start as u32, &stream[start..end]);
            there[start..end].fill(true);
            count += 1;
        }
        missing = there.iter().filter(|there| !**there).count();
        let direction = first(&writer.file);
        let begin = match with_syn {
            true => 0,
            false => there.iter().position(|there| *there).unwrap_or(0),
        };
        let end = (begin..length).find(|place| !there[*place]);
        let run = direction.run();
        assert_eq!(bytes(&run), stream[begin..end.unwrap_or(length)]);
        let behind = end.is_some_and(|end| there[end..].contains(&true));
        assert_eq!(run.gap.is_some(), behind, "{missing}");
        assert_eq!(direction.counts.conflicting_bytes, 0);
        let count = run.pieces.len();
        assert!(run.pieces.iter().all(|piece| !piece.is_empty()) && count <= 20 + 2_000);
    }
}
