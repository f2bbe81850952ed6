//! Generated builds and checksums, done by both; what was built is read back.

use crate::guarded::Guarded;
use crate::same::{self, REFUSED};
use crate::tally::Tally;
use mahuixen::sys::{self, Built, RawHeader};
use mahuixen::{abort_frame, build_banner, build_frame, checksum};
use mahuixen::{Features, Header, Receiver, Report, Revision, FRAME_OVERHEAD};
use second::builder;
use second::random::Random;
use second::records::{BannerRecord, ChecksumRecord, FrameRecord, Record, SendBuffer};

type Answer = Result<u64, second::refusal::Refusal>;

pub const KINDS: [&str; 11] = [
    "checksums",
    "banners",
    "frames, read back",
    "aborted frames, read back",
    REFUSED[6],
    REFUSED[8],
    REFUSED[9],
    REFUSED[13],
    REFUSED[14],
    REFUSED[15],
    REFUSED[16],
];

fn kind(refusal: u8) -> &'static str {
    REFUSED[usize::from(refusal)]
}

/// Builds into a guarded buffer and holds it to what the second builder made.
fn compare(
    random: &mut Random,
    buffer: SendBuffer,
    (answer, made): (Answer, &[u8]),
    build: impl FnOnce(&mut Random, &mut [u8]) -> Built,
) {
    let mut send = Guarded::new(random, &buffer.bytes());
    let built = build(random, send.lend());
    assert_eq!(built, same::built(answer));
    send.expect(made, "send buffer");
}

fn checksums(random: &mut Random, record: &ChecksumRecord) {
    let held = Guarded::new(random, &record.bytes);
    let due = second::checksum::checksum(record.start, &record.bytes);
    assert_eq!(checksum(record.start, held.content()), due);
    // Of a start above 32 bits the low ones count.
    let start = random.u64() << 32 | u64::from(record.start);
    assert_eq!(sys::checksum(start, held.content()), u64::from(due));
    held.expect(&record.bytes, "bytes");
}

fn banner(random: &mut Random, record: &BannerRecord, tally: &mut Tally) {
    let mut made = record.buffer.bytes();
    let queued = record.buffer.queued;
    let answer = builder::build_banner(record.features, &mut made, queued);
    let own = same::features(record.features);
    compare(random, record.buffer, (answer, &made), |random, send| {
        if random.once_in(2) {
            sys::build_banner(send, queued, own)
        } else {
            same::bare(build_banner(send, queued as usize, own))
        }
    });
    tally.count(answer.map_or_else(|refusal| kind(refusal.number), |_| KINDS[1]));
}

/// The library's build of a record, by the crate's types or by bare numbers.
fn build(random: &mut Random, record: &FrameRecord, source: &[u8], send: &mut [u8]) -> Built {
    let queued = record.buffer.queued as usize;
    let header = same::header(&record.frame);
    let revision = same::revision(record.revision);
    match (random.once_in(2), record.abort) {
        (true, false) => same::bare(build_frame(send, queued, revision, &header, source)),
        (true, true) => same::bare(abort_frame(send, queued, revision, &header, source)),
        (false, abort) => {
            let number = number(random, revision);
            let build = [sys::build_frame, sys::abort_frame][usize::from(abort)];
            beyond_its_fields(random, build, header.into(), source, send);
            build(send, queued as u64, number, &header.into(), source)
        }
    }
}

/// Any number but 0 stands for msgr2.1.
fn number(random: &mut Random, revision: Revision) -> u64 {
    let any = random.u64() | 2;
    random.pick(&[1, any]) * u64::from(revision.number())
}

/// A header with a number beyond its field is refused with 26, and the buffer
/// stays as it was.
fn beyond_its_fields(
    random: &mut Random,
    build: fn(&mut [u8], u64, u64, &RawHeader, &[u8]) -> Built,
    header: RawHeader,
    source: &[u8],
    send: &mut [u8],
) {
    let header = widened(random, header);
    let before = send.to_vec();
    let built = build(send, 0, random.u64(), &header, source);
    assert_eq!(built, (0, same::CONTRADICTS));
    assert!(send == before, "a refused build changed the buffer");
}

/// The header with a number beyond its field.
pub fn widened(random: &mut Random, mut header: RawHeader) -> RawHeader {
    let segment = random.between(0, 3) as usize;
    let (number, bits) = match random.between(1, 4) {
        1 => (&mut header.tag, 8),
        2 => (&mut header.count, 8),
        3 => (&mut header.segments[segment].len, 32),
        _ => (&mut header.segments[segment].align, 16),
    };
    *number |= 1 << random.between(bits, 63);
    header
}

fn frame(random: &mut Random, record: &FrameRecord, tally: &mut Tally) {
    let mut made = record.buffer.bytes();
    let queued = record.buffer.queued;
    let answer = builder::build_frame(&record.request(), &mut made, queued);
    let source = Guarded::new(random, &record.source);
    compare(random, record.buffer, (answer, &made), |random, send| {
        build(random, record, source.content(), send)
    });
    source.expect(&record.source, "source");
    match answer {
        Err(refusal) => tally.count(kind(refusal.number)),
        Ok(written) => {
            assert!(written <= record.frame.sum() + FRAME_OVERHEAD as u64);
            let start = queued as usize;
            let wire = &made[start..start + written as usize];
            read_back(random, record, wire);
            tally.count(KINDS[2 + usize::from(record.abort)]);
        }
    }
}

/// A receiver that has read the banner of a peer, and so knows the revision.
fn receiver_of(revision: Revision) -> Receiver {
    let own = Features::new(u64::from(revision.number()), 0);
    let mut banner = [0; mahuixen::BANNER_LENGTH];
    build_banner(&mut banner, 0, own).expect("a banner");
    let mut receiver = Receiver::start(own).expect("good features");
    let received = receiver.receive(&banner, &mut []);
    let peer = own;
    assert_eq!(received.report, Report::Banner { peer, revision });
    receiver
}

/// A frame as it is built, and what it was built from.
struct Sent<'a> {
    revision: Revision,
    header: Header,
    wire: &'a [u8],
    source: &'a [u8],
}

impl Sent<'_> {
    /// The last byte of segment 1's checksum, where msgr2.1 reports segment 1
    /// early.
    fn early(&self) -> Option<usize> {
        let first = self.header.segments[0].len as usize;
        let reported = self.revision == Revision::Msgr21 && first > 0 && self.header.count > 1;
        reported.then_some(36 + first)
    }
}

/// Offers the frame in pieces; answers the report that its last byte completes.
/// No other byte completes one, but for the early report of segment 1.
fn received(random: &mut Random, sent: &Sent, store: &mut [u8]) -> Report {
    let mut receiver = receiver_of(sent.revision);
    let (mut taken, length) = (0, sent.wire.len());
    loop {
        let most = random.pick(&[1, 40, 1_460, length as u32]);
        let offered = random.between(0, most.min((length - taken) as u32)) as usize;
        let received = receiver.receive(&sent.wire[taken..taken + offered], store);
        match sent.early() {
            Some(byte) if taken < byte && byte <= taken + offered => {
                assert_eq!(received.report, Report::First(sent.header));
                assert_eq!(received.taken, byte - taken);
                let first = sent.header.first_segment_in(store);
                assert_eq!(first, sent.header.first_segment_in(sent.source));
            }
            _ => assert_eq!(received.taken, offered),
        }
        taken += received.taken;
        if taken == length {
            return received.report;
        }
        assert!(matches!(received.report, Report::More | Report::First(_)));
        let early = matches!(received.report, Report::First(_));
        assert_eq!(early, received.taken > 0 && sent.early() == Some(taken));
    }
}

fn read_back(random: &mut Random, record: &FrameRecord, wire: &[u8]) {
    let header: Header = same::header(&record.frame);
    let sent = Sent {
        revision: same::revision(record.revision),
        header,
        wire,
        source: &record.source,
    };
    let behind = random.between(0, 20);
    let behind = random.bytes(behind);
    let mut expected = record.source.clone();
    if record.abort {
        expected.fill(0);
    }
    expected.extend(&behind);
    let before = [vec![0xA7; record.source.len()], behind].concat();
    let mut store = Guarded::new(random, &before);
    let report = received(random, &sent, store.lend());
    let told = if record.abort {
        Report::Dropped(header)
    } else {
        Report::Frame(header)
    };
    assert_eq!(report, told);
    store.expect(&expected, "store");
}

/// Does what the record asks for, on both sides.
pub fn run(random: &mut Random, record: &Record, tally: &mut Tally) {
    match record {
        Record::Checksum(record) => {
            checksums(random, record);
            tally.count(KINDS[0]);
        }
        Record::Banner(record) => banner(random, record, tally),
        Record::Frame(record) => frame(random, record, tally),
        _ => unreachable!("not among the records of builds"),
    }
}
