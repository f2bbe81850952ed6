use super::*;
use crate::capture::write::{pcapng, Sent, Writer, ACK, FIN, SYN};
use crate::layout::Frame;
use crate::walk::Event;
use mahuixen::{abort_frame, build_banner, build_frame, checksum, tag, PREAMBLE_START};
use mahuixen::{Header, Revision, Segment};
use std::ffi::OsString;
use std::fs;
use std::io::Cursor;
use std::path::{Path, PathBuf};

/// Numbers that look random and are the same in every run (xorshift).
pub struct Random(pub u64);

impl Random {
    fn next(&mut self) -> u64 {
        self.0 ^= self.0 << 13;
        self.0 ^= self.0 >> 7;
        self.0 ^= self.0 << 17;
        self.0
    }

    /// A number below a limit.
    pub fn below(&mut self, limit: usize) -> usize {
        (self.next() >> 16) as usize % limit
    }
}

/// A folder that is there for a test alone.
struct Folder(PathBuf);

impl Folder {
    fn new(name: &str) -> Self {
        let name = format!("mahuixen-{name}-{}", std::process::id());
        let folder = std::env::temp_dir().join(name);
        fs::create_dir(&folder).expect("a folder of the test's own");
        Self(folder)
    }

    fn option(&self) -> String {
        format!("--pieces={}", self.0.display())
    }

    /// The only file in it.
    fn file(&self) -> (String, Vec<u8>) {
        let entries: Vec<_> = fs::read_dir(&self.0).expect("a folder").collect();
        assert_eq!(entries.len(), 1);
        let path = entries[0].as_ref().expect("an entry").path();
        let name = path.file_name().expect("a name").to_string_lossy();
        (name.into_owned(), fs::read(&path).expect("a file"))
    }
}

impl Drop for Folder {
    fn drop(&mut self) {
        let _ = fs::remove_dir_all(&self.0);
    }
}

fn options(words: &[&str]) -> Options {
    let words = words.iter().copied().chain(["-"]).map(OsString::from);
    match Options::parse(words) {
        Ok(Command::Print(options)) => options,
        other => panic!("{other:?}"),
    }
}

fn try_print(bytes: &[u8], words: &[&str]) -> Result<(Vec<String>, bool), Failure> {
    let input = Input::new(
        "some/memory.bin",
        Box::new(Cursor::new(bytes.to_vec())),
        None,
    )?;
    let mut out = Vec::new();
    let ok = print(input, &options(words), &mut out)?;
    let text = String::from_utf8(out).expect("plain text");
    Ok((text.lines().map(String::from).collect(), ok))
}

/// The lines of an input, and whether all links in it end ok.
fn printed(bytes: &[u8], words: &[&str]) -> (Vec<String>, bool) {
    try_print(bytes, words).expect("lines")
}

fn lines(bytes: &[u8]) -> Vec<String> {
    printed(bytes, &[]).0
}

/// The banner, and behind it a frame of 56 bytes and an aborted one of 54.
fn stream() -> Vec<u8> {
    let one = Header::new(tag::HELLO, &[Segment::new(20, 8)]);
    let two = Header::new(tag::MESSAGE, &[Segment::new(2, 8), Segment::new(3, 4_096)]);
    let mut send = vec![0; 26 + 56 + 54];
    build_banner(&mut send, 0, OWN).expect("room");
    build_frame(&mut send, 26, Revision::Msgr21, &one, &[7; 20]).expect("room");
    abort_frame(&mut send, 82, Revision::Msgr21, &two, &[7; 5]).expect("room");
    send
}

/// A preamble with these bytes at a place, and its checksum.
fn preamble(place: usize, bytes: &[u8]) -> Vec<u8> {
    let mut preamble = vec![0; 32];
    preamble[..2].copy_from_slice(&[17, 4]);
    preamble[20] = 1;
    preamble[place..place + bytes.len()].copy_from_slice(bytes);
    let sum = checksum(PREAMBLE_START, &preamble[..28]);
    preamble[28..].copy_from_slice(&sum.to_le_bytes());
    preamble
}

fn recordings() -> PathBuf {
    Path::new(env!("CARGO_MANIFEST_DIR")).join("../recordings")
}

#[test]
fn a_whole_link() {
    let expected = [
        "bytes 1 to 26: banner, supported 0x1, required 0x0: msgr2.1",
        "bytes 27 to 82: frame 1, tag 1 hello, lengths 20, alignments 8",
        "bytes 83 to 136: frame 2 dropped, tag 17 message, lengths 2 3, alignments 8 4096",
        "frames 1, dropped 1; complete at byte 136",
    ];
    assert_eq!(
        printed(&stream(), &[]),
        (expected.map(String::from).to_vec(), true)
    );
}

#[test]
fn where_a_link_is_cut() {
    let stream = stream();
    let end = |length: usize, count: usize| {
        let (mut lines, ok) = printed(&stream[..length], &[]);
        assert_eq!(ok, count == 1, "{length}");
        lines.drain(..lines.len() - count);
        lines
    };
    assert_eq!(end(0, 1), ["frames 0, dropped 0; empty"]);
    let banner = [
        "frames 0, dropped 0; cut at byte 25, 25 bytes of an unfinished part",
        "the banner, from byte 1 on, is not complete",
    ];
    assert_eq!(end(25, 2), banner);
    assert_eq!(end(26, 1), ["frames 0, dropped 0; complete at byte 26"]);
    let preamble = [
        "frames 1, dropped 0; cut at byte 113, 31 bytes of an unfinished part",
        "the frame from byte 83 on ends inside of its preamble",
    ];
    assert_eq!(end(113, 2), preamble);
    let frame = [
        "frames 1, dropped 0; cut at byte 134, 52 bytes of an unfinished part",
        "the frame from byte 83 on, tag 17 message, lengths 2 3, alignments 8 4096, has 54 bytes and lacks 2",
    ];
    assert_eq!(end(134, 2), frame);
}

#[test]
fn a_link_longer_than_a_piece() {
    let mut stream = stream();
    let frame = stream[26..82].to_vec();
    let more = 2 * 65_536 / frame.len();
    (0..more).for_each(|_| stream.extend(&frame));
    let lines = lines(&stream);
    assert_eq!(lines.len(), 4 + more);
    let (frames, length) = (1 + more, stream.len());
    let last = format!("frames {frames}, dropped 1; complete at byte {length}");
    assert_eq!(lines[3 + more], last);
}

#[test]
fn a_refused_segment() {
    let mut stream = stream();
    stream[60] ^= 1;
    let (lines, ok) = printed(&stream, &[]);
    assert!(!ok);
    let expected = "refused at byte 82 with number 11: the checksum of segment 1 differs";
    assert_eq!(lines[1], format!("frames 0, dropped 0; {expected}"));
    let [a, b] = [&stream[78..82], &[0; 4]].map(|sum| layout::number(sum, 0..4));
    assert_ne!(a, b);
    assert!(lines[2].starts_with(&format!(
        "at bytes 79 to 82: segment 1's checksum is {a:#010x}, and its 20 bytes give 0x"
    )));
    assert!(lines[2].ends_with("; the part began at byte 27"));
    // The row with the checksum, and those around it.
    assert!(lines[3].starts_with("          59  "));
    assert!(lines[4].starts_with("          75  07 07 07 07["));
    assert!(lines[5].starts_with("          91  "));
    assert_eq!(
        lines[6],
        "hint: no frame can be read: perhaps the link speaks msgr2.0 by its receiver's banner, try --own=0"
    );
    assert_eq!(lines.len(), 7);
}

#[test]
fn an_epilogue_in_another_spelling() {
    let mut stream = stream();
    stream[132] = 5;
    let (lines, ok) = printed(&stream, &[]);
    assert!(!ok);
    let words = "the checksum field of segment 4, which is not used, is not 0";
    assert_eq!(
        lines[2],
        format!("frames 1, dropped 0; refused at byte 136 with number 24: {words}")
    );
    assert_eq!(
        lines[3],
        "at bytes 133 to 136: the checksum of segment 4, which is not used, is 0x00000005; the part began at byte 83"
    );
    assert!(lines[5].starts_with("         131  00 00[05 00 00 00]"));
    assert_eq!(lines.len(), 6);
}

#[test]
fn a_length_at_fault() {
    let mut stream = stream();
    stream.extend(preamble(14, &0x7FFF_FFFFu32.to_le_bytes()));
    stream.extend(b"more");
    let lines = lines(&stream);
    assert!(lines[3].starts_with("frames 1, dropped 1; refused at byte 168 with number 9: "));
    assert_eq!(
        lines[4],
        "at bytes 151 to 154: segment 3's length is 2147483647, and all lengths add up to 2147483648; the part began at byte 137"
    );
    assert!(lines[5].starts_with("         121  ") && lines[6].starts_with("         137  11 04"));
    assert!(lines[6].ends_with("00[ff ff  ................"));
    assert!(lines[7].starts_with("         153  ff 7f]00 00 "));
    assert_eq!(
        lines[8].trim_start(),
        "169  6d 6f 72 65                                      more"
    );
}

#[test]
fn our_own_features() {
    let mut send = vec![0; 200];
    build_banner(&mut send, 0, OWN).expect("room");
    let header = Header::new(tag::HELLO, &[Segment::new(36, 8)]);
    let length = build_frame(&mut send, 26, Revision::Msgr20, &header, &[1; 36]).expect("room");
    send.truncate(26 + length);
    let (lines, ok) = printed(&send, &["--own=0"]);
    assert!(ok && lines[0].ends_with("msgr2.0"));
    let (lines, ok) = printed(&send, &[]);
    assert!(
        !ok && lines
            .last()
            .is_some_and(|hint| hint.ends_with("try --own=0"))
    );
    let (lines, ok) = printed(&stream(), &["--own=0"]);
    assert!(
        !ok && lines
            .last()
            .is_some_and(|hint| hint.ends_with("try --own=1"))
    );
    // Features that we cannot have.
    for own in ["--own=2", "--own=0,1"] {
        let command = Command::Print(options(&[own]));
        let failure = super::run(command, &mut Vec::new()).expect_err("bad features");
        assert!(failure.to_string().starts_with("--own: our own features"));
    }
}

#[test]
fn a_store_that_is_too_short() {
    let (lines, ok) = printed(&stream(), &["--store=19"]);
    assert!(!ok);
    assert!(lines[1].contains("refused at byte 58 with number 10: "));
    assert!(lines[2].contains("the lengths add up to 20, and the store has 19"));
    assert!(printed(&stream(), &["--store=20"]).1);
}

#[test]
fn a_summary() {
    let mut stream = stream();
    let hello = stream[26..82].to_vec();
    stream.extend(hello);
    let expected = [
        "bytes 1 to 26: banner, supported 0x1, required 0x0: msgr2.1",
        "tag 1 hello: frames 2, dropped 0, bytes of segments 40, bytes on the wire 112",
        "tag 17 message: frames 0, dropped 1, bytes of segments 5, bytes on the wire 54",
        "frames 2, dropped 1; complete at byte 192",
    ];
    let (lines, ok) = printed(&stream, &["--summary"]);
    assert_eq!((lines, ok), (expected.map(String::from).to_vec(), true));
}

/// The link behind an auth done frame with this mode.
fn authenticated(mode: u8) -> Vec<u8> {
    let header = Header::new(tag::AUTH_DONE, &[Segment::new(16, 8)]);
    let mut body = [0; 16];
    body[8] = mode;
    let mut send = vec![0; 300];
    build_banner(&mut send, 0, OWN).expect("room");
    let length = build_frame(&mut send, 26, Revision::Msgr21, &header, &body).expect("room");
    send.truncate(26 + length);
    send.extend([0x5A; 96]);
    send
}

#[test]
fn hints_at_secure_mode_and_compression() {
    let hints = |stream: &[u8]| -> Vec<String> {
        let lines = lines(stream).into_iter();
        lines.filter(|line| line.starts_with("hint: ")).collect()
    };
    assert!(hints(&stream()).is_empty());
    assert!(hints(&authenticated(1)).is_empty());
    let secure = hints(&authenticated(2));
    assert!(secure.len() == 1 && secure[0].contains("frame 1, auth done, says connection mode 2"));
    let mut compressed = stream();
    compressed.extend(preamble(0, &[21]));
    let hint = hints(&compressed);
    assert!(hint.len() == 1 && hint[0].contains("tag 21 is a compression request"));
    assert_eq!(hints(b"ceph v027 and more").len(), 1);
}

#[test]
fn link_files() {
    let stream = stream();
    let mut file = Vec::new();
    link_file::write_table(&[100, 0, 36], &mut file).expect("a table");
    file.extend(&stream);
    assert_eq!(printed(&file, &[]), printed(&stream, &[]));
    // Bytes behind the pieces are not read, and missing ones are said.
    file.extend(&stream);
    assert_eq!(printed(&file, &[]), printed(&stream, &[]));
    file.truncate(14 + 82);
    let (lines, ok) = printed(&file, &[]);
    assert!(!ok);
    assert_eq!(
        lines.last().expect("a line"),
        "the link file lacks 54 bytes of its pieces"
    );
    // A refusal in front of the end comes first.
    file[14 + 60] ^= 1;
    let (lines, ok) = printed(&file, &[]);
    assert!(!ok && lines.iter().any(|line| line.contains("with number 11")));
}

#[test]
fn a_recording_written_as_a_link_file() {
    let mut stream = stream();
    let frame = stream[26..82].to_vec();
    (0..1_000).for_each(|_| stream.extend(&frame));
    stream[50_000] ^= 1;
    let folder = Folder::new("recording");
    let (lines, ok) = printed(&stream, &[&folder.option()]);
    assert!(!ok);
    assert!(lines
        .last()
        .is_some_and(|line| line.ends_with("memory.link: 4 pieces")));
    // All of it, behind the refusal too.
    let (name, file) = folder.file();
    assert_eq!(name, "memory.link");
    assert_eq!(link_file::table(&file), Some((18, stream.len() as u64)));
    assert_eq!(file[18..], stream);
    // Nothing is overwritten.
    let failure = try_print(b"ceph", &[&folder.option()]).expect_err("a file is there");
    assert!(failure.to_string().contains("memory.link: File exists"));
    assert_eq!(folder.file().1, file);
}

/// Frames of recorded links have the lengths that the layout gives them.
#[test]
fn lengths_of_recorded_frames() {
    let mut frames = 0;
    for entry in fs::read_dir(recordings()).expect("a folder") {
        let path = entry.expect("an entry").path();
        if path.extension().is_none_or(|extension| extension != "bin") {
            continue;
        }
        let link = fs::read(&path).expect("a recording");
        let mut walk = Walk::start(OWN, 1 << 21).expect("features that we can have");
        let mut revision = None;
        let shown = walk.offer(&link, |part| -> Result<(), Failure> {
            let first = part.first as usize - 1;
            match part.what {
                Event::Banner {
                    revision: spoken, ..
                } => revision = Some(spoken),
                Event::Frame(header) | Event::Dropped(header) => {
                    let revision = revision.expect("a banner in front");
                    let frame = Frame::read(revision, &link[first..]).expect("a preamble");
                    assert_eq!(frame.header, header);
                    let length = part.last as usize - first;
                    assert_eq!(frame.length_on_the_wire(), length, "{path:?} {first}");
                    frames += 1;
                }
            }
            Ok(())
        });
        shown.expect("nothing that fails");
    }
    assert!(frames > 100);
}

/// Segments of a connection between two ends that have said their SYNs.
struct Conversation {
    writer: Writer,
    sent: [u32; 2],
}

impl Conversation {
    fn new() -> Self {
        let mut conversation = Self {
            writer: Writer::new(113),
            sent: [0, 0],
        };
        conversation.send(0, SYN, &[]);
        conversation.send(1, SYN | ACK, &[]);
        conversation
    }

    fn send(&mut self, side: usize, flags: u8, bytes: &[u8]) {
        let ends = ["[2001:db8::7]:40000", "[::1]:6789"];
        let ends = ends.map(|end| end.parse().expect("an address"));
        self.writer.send(&Sent {
            from: ends[side],
            to: ends[1 - side],
            sequence: self.sent[side],
            acknowledged: self.sent[1 - side],
            flags,
            bytes,
        });
        self.sent[side] += bytes.len() as u32 + u32::from(flags & (SYN | FIN) != 0);
    }
}

#[test]
fn a_capture() {
    let stream = stream();
    let mut conversation = Conversation::new();
    for piece in stream.chunks(50) {
        conversation.send(0, ACK, piece);
    }
    conversation.send(1, ACK, &stream[..26]);
    conversation.send(0, ACK | FIN, &[]);
    let (lines, ok) = printed(&conversation.writer.file, &[]);
    assert!(ok);
    let expected = [
        "direction 1: [2001:db8::7]:40000 to [::1]:6789",
        "  3 TCP segments with bytes, 136 bytes in order; from 0.000000 to 0.003000 seconds",
        "  read with the other direction's features: supported 0x1, required 0x0",
        "  closed by its sender",
        "bytes 1 to 26: banner, supported 0x1, required 0x0: msgr2.1",
        "bytes 27 to 82: frame 1, tag 1 hello, lengths 20, alignments 8",
        "bytes 83 to 136: frame 2 dropped, tag 17 message, lengths 2 3, alignments 8 4096",
        "frames 1, dropped 1; complete at byte 136",
        "",
        "direction 2: [::1]:6789 to [2001:db8::7]:40000",
        "  1 TCP segment with bytes, 26 bytes in order; from 0.000500 to 0.002500 seconds",
        "  read with the other direction's features: supported 0x1, required 0x0",
        "  still open at the end of the capture",
        "bytes 1 to 26: banner, supported 0x1, required 0x0: msgr2.1",
        "frames 0, dropped 0; complete at byte 26",
        "",
        "packets 7",
    ];
    assert_eq!(lines, expected);
}

/// Bytes are missing right behind a frame, at which the link ends whole.
#[test]
fn a_gap_behind_a_frame() {
    let stream = stream();
    let mut conversation = Conversation::new();
    conversation.send(0, ACK, &stream[..82]);
    let (lines, ok) = printed(&conversation.writer.file, &[]);
    assert!(ok && lines[2] == "  still open at the end of the capture");
    conversation.sent[0] += 20;
    conversation.send(0, ACK, &stream[102..]);
    let (lines, ok) = printed(&conversation.writer.file, &[]);
    assert!(!ok);
    let gap = "  the capture lacks 20 bytes behind byte 82; 34 bytes behind the gap, in 1 piece, are not read";
    assert_eq!(lines[2], gap);
    assert_eq!(lines[6], "frames 1, dropped 0; complete at byte 82");
}

#[test]
fn a_capture_without_a_link() {
    let mut conversation = Conversation::new();
    conversation.send(0, ACK, b"SSH-2.0-");
    conversation.writer.packet(&[0; 20]);
    let (lines, ok) = printed(&conversation.writer.file, &[]);
    assert!(!ok);
    let expected = [
        "packets 4; left out: 1 without TCP over IP, 0 fragments of IP packets, 0 malformed",
        "no direction begins with a banner",
        "directions with bytes that do not begin with a banner: 1, of which 0 lack their first bytes",
    ];
    assert_eq!(lines, expected);
}

/// The other side's banner says that it speaks msgr2.0 alone, or that the link
/// goes over to secure mode.
#[test]
fn what_the_other_direction_says() {
    let mut conversation = Conversation::new();
    let mut send = vec![0; 200];
    build_banner(&mut send, 0, OWN).expect("room");
    let header = Header::new(tag::AUTH_REQUEST, &[Segment::new(5, 8)]);
    let length = build_frame(&mut send, 26, Revision::Msgr20, &header, &[1; 5]).expect("room");
    conversation.send(0, ACK, &send[..26 + length]);
    let mut banner = [0; 26];
    build_banner(&mut banner, 0, Features::new(0, 0)).expect("room");
    conversation.send(1, ACK, &banner);
    let (lines, ok) = printed(&conversation.writer.file, &[]);
    assert!(ok, "{lines:?}");
    assert!(!printed(&conversation.writer.file, &["--own=1"]).1);

    let mut conversation = Conversation::new();
    let length = build_frame(&mut send, 26, Revision::Msgr21, &header, &[1; 5]).expect("room");
    conversation.send(0, ACK, &send[..26 + length]);
    conversation.send(0, ACK, &[0xA5; 96]);
    conversation.send(1, ACK, &authenticated(2));
    let (lines, ok) = printed(&conversation.writer.file, &[]);
    assert!(!ok);
    let hints: Vec<_> = lines
        .iter()
        .filter(|line| line.starts_with("hint: "))
        .collect();
    assert_eq!(hints.len(), 2);
    assert!(hints[0].contains("the other direction's auth done says connection mode 2"));
    assert!(hints[1].contains("frame 1, auth done, says connection mode 2"));
}

#[test]
fn a_direction_written_as_a_link_file() {
    let stream = stream();
    let mut conversation = Conversation::new();
    for piece in stream.chunks(50) {
        conversation.send(0, ACK, piece);
    }
    let folder = Folder::new("direction");
    let (lines, ok) = printed(&conversation.writer.file, &[&folder.option()]);
    let note = &lines[3];
    assert!(
        ok && note.starts_with("  written to ") && note.ends_with("3 pieces, a piece a TCP segment")
    );
    let (name, file) = folder.file();
    assert_eq!(name, "1-2001_db8__7.40000-__1.6789.link");
    assert_eq!(file[..14], *b"\x03\0\x32\0\0\0\x32\0\0\0\x24\0\0\0");
    assert_eq!(file[14..], stream);
}

#[test]
fn more_segments_than_a_link_file_has_pieces() {
    let mut stream = stream();
    let frame = stream[26..82].to_vec();
    (0..20).for_each(|_| stream.extend(&frame));
    let mut conversation = Conversation::new();
    stream
        .iter()
        .for_each(|byte| conversation.send(0, ACK, &[*byte]));
    let folder = Folder::new("segments");
    let (lines, ok) = printed(&conversation.writer.file, &[&folder.option()]);
    assert!(ok && lines[3].ends_with("419 pieces, 3 of the 1256 TCP segments joined in each"));
    let (_, file) = folder.file();
    assert_eq!(file[2 + 4 * 419..], stream);
    assert_eq!(printed(&file, &[]), printed(&stream, &[]));
}

/// The capture of the example with two ends, on loopback.
fn two_ends() -> Vec<u8> {
    fs::read(recordings().join("two_ends.pcap")).expect("the stored capture")
}

/// What a capture has of its links, in the order of their senders' addresses:
/// for each its bytes in order, and whether some are missing.
fn links(file: &[u8]) -> Vec<(Vec<u8>, bool)> {
    let capture = Capture::read(file).expect("a capture");
    let connections = capture.connections.iter();
    let mut links: Vec<_> = connections
        .flat_map(|connection| connection.ends.iter().zip(&connection.directions))
        .collect();
    links.sort_by_key(|(sender, _)| std::cmp::Reverse(**sender));
    let runs = links.into_iter().map(|(_, direction)| direction.run());
    runs.map(|run| (run.pieces.concat(), run.gap.is_some()))
        .collect()
}

/// Where each packet of a capture stands in the file.
fn packets(file: &[u8]) -> Vec<std::ops::Range<usize>> {
    let mut packets = Vec::new();
    let mut place = 24;
    while place < file.len() {
        let end = place + 16 + layout::number(file, place + 8..place + 12) as usize;
        packets.push(place..end);
        place = end;
    }
    packets
}

#[test]
fn the_stored_capture() {
    let file = two_ends();
    let links = links(&file);
    let lengths: Vec<_> = links.iter().map(|(link, gap)| (link.len(), *gap)).collect();
    assert_eq!(lengths, [(39_050, false), (114, false)]);
    let (lines, ok) = printed(&file, &[]);
    assert!(!ok);
    assert_eq!(
        printed(&pcapng(&file, true, false), &[]),
        (lines.clone(), ok)
    );
    // Each direction by itself is read as in the capture.
    for (link, _) in links {
        let alone = printed(&link, &[]).0;
        assert!(lines.windows(alone.len()).any(|lines| lines == alone));
    }
}

#[test]
fn the_stored_capture_cut_anywhere() {
    let file = two_ends();
    let whole = links(&file);
    let ends = packets(&file);
    for length in (24..file.len()).step_by(61) {
        let cut = &file[..length];
        for ((link, _), (whole, _)) in links(cut).iter().zip(&whole) {
            assert!(whole.starts_with(link), "{length}");
        }
        let (lines, ok) = printed(cut, &["--summary", "--store=40000"]);
        let damaged = length > 24 && ends.iter().all(|packet| packet.end != length);
        let expected = lines.last().expect("a line");
        assert!(!ok || !damaged);
        assert_eq!(
            expected.starts_with("the capture ends inside of packet "),
            damaged
        );
    }
}

#[test]
fn the_stored_capture_without_a_packet() {
    let file = two_ends();
    let whole = links(&file);
    let mut gaps = 0;
    for packet in packets(&file) {
        let without = [&file[..packet.start], &file[packet.end..]].concat();
        let links = links(&without);
        assert_eq!(links.len(), 2);
        for ((link, gap), (whole, _)) in links.iter().zip(&whole) {
            assert!(whole.starts_with(link));
            assert!(*gap == (link != whole), "{} {}", link.len(), whole.len());
            gaps += usize::from(*gap);
        }
        let expected = printed(&without, &[]).0;
        let lacks = |line: &&String| line.starts_with("  the capture lacks ");
        let lacking = expected.iter().filter(lacks).count();
        let without_start = expected
            .iter()
            .any(|line| line.ends_with("of which 1 lack their first bytes"));
        let missing = links.iter().filter(|(_, gap)| *gap).count();
        assert_eq!(lacking + usize::from(without_start), missing);
    }
    // One for each TCP segment with bytes.
    assert_eq!(gaps, 43 + 14);
}

/// Packets of the stored capture twice, and in another order.
#[test]
fn the_stored_capture_shuffled() {
    let file = two_ends();
    let whole = links(&file);
    let mut random = Random(0x5EED_0002);
    for _ in 0..100 {
        let mut order: Vec<_> = packets(&file);
        order.extend(packets(&file));
        // The SYNs stay in front, so that it is known who began.
        for place in (3..order.len()).rev() {
            order.swap(place, 2 + random.below(place - 1));
        }
        let mut shuffled = file[..24].to_vec();
        order
            .iter()
            .for_each(|packet| shuffled.extend(&file[packet.clone()]));
        assert_eq!(links(&shuffled), whole);
    }
}

/// A number from the environment.
fn setting(name: &str, otherwise: u64) -> u64 {
    let number = |text: String| text.parse().expect("a number");
    std::env::var(name).map_or(otherwise, number)
}

/// Bytes flipped, cut out, repeated and overwritten at random: whatever comes
/// of it is printed, and nothing panics. MAHUIXEN_CAPTURES and MAHUIXEN_SEED
/// change how many there are and what they are made from.
#[test]
fn the_stored_capture_damaged_at_random() {
    let runs = setting("MAHUIXEN_CAPTURES", 2_000);
    let mut random = Random(setting("MAHUIXEN_SEED", 0x5EED_0003).max(1));
    let file = two_ends();
    let packets = packets(&file);
    let other = pcapng(&file, false, false);
    let (mut readable, mut linked) = (0, 0);
    for run in 0..runs {
        let mut damaged = if run % 4 == 0 { &other } else { &file }.clone();
        for _ in 0..1 + random.below(6) {
            damage(&mut damaged, &packets, &mut random);
        }
        let words: &[&str] = match random.below(4) {
            0 => &["--summary", "--store=40000"],
            1 => &["--own=0", "--store=100"],
            _ => &["--store=40000"],
        };
        if let Ok((lines, _)) = try_print(&damaged, words) {
            readable += 1;
            linked += u64::from(lines.iter().any(|line| line.starts_with("direction 1: ")));
        }
    }
    assert!(readable > runs / 2 && linked > runs / 2 && readable <= runs);
}

/// Damaged recordings: every end that a link can have is printed.
#[test]
fn recordings_damaged_at_random() {
    let runs = setting("MAHUIXEN_CAPTURES", 2_000);
    let mut random = Random(setting("MAHUIXEN_SEED", 0x5EED_0004).max(1));
    let names = [
        "cx_badmethod_then_ok_s2c",
        "none_put16000_osd_s2c",
        "cut_a_s2c",
    ];
    let links = names.map(|name| {
        let path = recordings().join(format!("{name}.bin"));
        fs::read(path).expect("a recording")
    });
    let mut ends = std::collections::BTreeSet::new();
    for _ in 0..runs {
        let mut link = links[random.below(links.len())].clone();
        let starts: Vec<_> = (0..link.len())
            .step_by(16)
            .map(|start| start..start)
            .collect();
        (0..1 + random.below(3)).for_each(|_| damage(&mut link, &starts, &mut random));
        let (lines, ok) = printed(&link, &["--store=20000"]);
        let last = lines.iter().rfind(|line| line.starts_with("frames "));
        let end = last.and_then(|line| line.split("; ").nth(1)?.split(' ').next());
        let end = end.expect("an end").to_string();
        assert_eq!(ok, end == "complete" || end == "empty");
        ends.insert(end);
    }
    let due = ["complete", "cut", "refused"];
    assert!(due.iter().all(|end| ends.contains(*end)), "{ends:?}");
}

/// One damage, more often than not inside of the headers.
fn damage(file: &mut Vec<u8>, packets: &[std::ops::Range<usize>], random: &mut Random) {
    let packet = packets[random.below(packets.len())].start;
    let place = match random.below(8) {
        0 => random.below(24),
        1..=5 => packet + random.below(16 + 14 + 20 + 32),
        _ => random.below(file.len().max(1)),
    };
    let place = place.min(file.len().saturating_sub(1));
    let end = (place + 1 + random.below(60)).min(file.len());
    let extremes = [0, 1, 4, 0x0F, 0x45, 0x60, 0x7F, 0x80, 0xFE, 0xFF];
    match random.below(16) {
        0 => file.truncate(place),
        1 => drop(file.drain(place..end)),
        2 => {
            let again = file[place..end].to_vec();
            file.splice(place..place, again);
        }
        3 => {
            let garbage: Vec<u8> = (place..end).map(|_| random.below(256) as u8).collect();
            file.splice(place..end, garbage);
        }
        4..=9 => file[place..end.min(place + 1)].fill(extremes[random.below(extremes.len())]),
        10 => file[place..end.min(place + 4)].fill(extremes[random.below(extremes.len())]),
        _ => file[place..end.min(place + 1)]
            .iter_mut()
            .for_each(|byte| *byte ^= 1 << random.below(8)),
    }
}
