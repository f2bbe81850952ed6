//! Measures the library beside the independent second program, beside a floor
//! (the bytes copied and their checksums worked out, and nothing else) and beside
//! other ways to work out a checksum, on the same bytes and into buffers of the
//! same length, and prints Markdown tables.
//! `cargo run --release --example figures`

mod sums;

use mahuixen::sys;
use mahuixen::{Features, Header, Receiver, Report, Segment, State};
use second::builder::FrameRequest;
use second::frame::Frame;
use second::wire::Revision;
use std::cell::RefCell;
use std::hint::black_box;
use std::time::{Duration, Instant};

/// Segment lengths that are measured.
const LENGTHS: [u32; 4] = [64, 1_024, 16_384, 1 << 20];

/// Lengths whose checksums are measured; the first is a preamble's.
const SUMMED: [usize; 6] = [28, 64, 256, 1_024, 16_384, 1 << 20];

/// About so many bytes in each run, and where they are offered one by one.
const BYTES: usize = 1 << 20;
const SINGLE_BYTES: usize = 1 << 15;

/// Runs of each, by turns, of which the tenth fastest counts: other work on the
/// machine only ever makes a run longer.
const RUNS: usize = 100;
const COUNTED: usize = 9;

/// What a network packet usually carries.
const PACKET: usize = 1_460;

const STORE: usize = mahuixen::STORE_LIMIT;

fn frame(lengths: [u32; 2]) -> Frame {
    let [one, two] = lengths.map(|length| second::frame::Segment {
        length,
        alignment: 8,
    });
    let none = second::frame::Segment::default();
    Frame {
        tag: 17,
        count: 2,
        segments: [one, two, none, none],
    }
}

fn header(lengths: [u32; 2]) -> Header {
    Header::new(17, &lengths.map(|length| Segment::new(length, 8)))
}

fn request(lengths: [u32; 2], abort: bool, source: &[u8]) -> FrameRequest<'_> {
    FrameRequest {
        revision: Revision::Msgr21,
        frame: frame(lengths),
        abort,
        source,
    }
}

/// Bytes of both segments, none of them alike.
fn source(lengths: [u32; 2]) -> Vec<u8> {
    let words = (0u32..).map(|n| n.wrapping_mul(0x9E37_79B1).to_le_bytes()[3]);
    words.take(lengths.iter().sum::<u32>() as usize).collect()
}

/// A banner and frames of two segments of this length each.
fn stream(length: u32) -> Vec<u8> {
    let lengths = [length; 2];
    let source = source(lengths);
    let mut bytes = second::banner::Features::new(1, 0).banner();
    let mut buffer = vec![0; mahuixen::LONGEST_FRAME];
    let written = second::builder::build_frame(&request(lengths, false, &source), &mut buffer, 0);
    let written = written.expect("a good frame") as usize;
    while bytes.len() < BYTES {
        bytes.extend(&buffer[..written]);
    }
    bytes
}

fn timed(work: impl FnOnce() -> usize, expected: usize) -> Duration {
    let start = Instant::now();
    let done = work();
    let taken = start.elapsed();
    assert_eq!(done, expected, "not all the work was done");
    taken
}

fn counted(mut times: Vec<Duration>) -> f64 {
    times.sort();
    times[COUNTED].as_secs_f64()
}

/// Megabytes in a second of each work, by turns.
fn measure<const N: usize>(
    bytes: usize,
    works: [&dyn Fn() -> usize; N],
    expected: usize,
) -> [f64; N] {
    let mut times = works.map(|_| Vec::new());
    for _ in 0..RUNS {
        for (times, work) in times.iter_mut().zip(works) {
            times.push(timed(work, expected));
        }
    }
    times.map(|times| bytes as f64 / 1e6 / counted(times))
}

/// The library's speed, and that of each other one with the library's ratio to it.
fn print_row(what: &str, [library, others @ ..]: [f64; 3]) {
    print!("| {what} | {library:.0} |");
    for other in others {
        print!(" {other:.0} | {:.2} |", library / other);
    }
    println!();
}

fn print_head(title: &str) {
    println!("\n| {title} | Library, MB/s | Floor, MB/s | Ratio | Second program, MB/s | Ratio |");
    println!("|---|---|---|---|---|---|");
}

/// A receiver's store, made before any time is taken: what the system does for a
/// buffer's first use is no receiver's work.
fn store() -> RefCell<Vec<u8>> {
    let mut store = vec![0; STORE];
    store.fill(1);
    RefCell::new(store)
}

/// Frames that the library reports of the stream, in pieces of this length.
fn receive(stream: &[u8], piece: usize, store: &mut [u8]) -> usize {
    let mut receiver = Receiver::start(Features::new(1, 0)).expect("good features");
    let mut frames = 0;
    for mut piece in stream.chunks(piece) {
        while !piece.is_empty() {
            let received = receiver.receive(piece, store);
            piece = &piece[received.taken..];
            frames += usize::from(matches!(received.report, Report::Frame(_)));
        }
    }
    black_box(store);
    frames
}

fn second_receive(stream: &[u8], piece: usize, store: &mut [u8]) -> usize {
    let own = second::banner::Features::new(1, 0);
    let (mut receiver, started) = second::receiver::Receiver::start(own);
    started.expect("good features");
    let mut frames = 0;
    for mut piece in stream.chunks(piece) {
        while !piece.is_empty() {
            let (taken, report) = receiver.receive(piece, store);
            piece = &piece[taken..];
            frames += usize::from(matches!(report, second::report::Report::Frame(_)));
        }
    }
    black_box(store);
    frames
}

/// The least that can be done with frames of two segments of this length: each
/// piece is copied behind the one before it, and a frame that is whole has its
/// checksums compared. Answers how many are good.
fn floor_receive(stream: &[u8], length: usize, piece: usize, store: &mut [u8]) -> usize {
    let store = &mut store[..wire_length(length)];
    let (mut at, mut frames) = (0, 0);
    for mut piece in stream.chunks(piece) {
        while !piece.is_empty() {
            let taken = piece.len().min(store.len() - at);
            store[at..at + taken].copy_from_slice(&piece[..taken]);
            piece = &piece[taken..];
            at += taken;
            if at == store.len() {
                frames += usize::from(floor_compare(store, length));
                at = 0;
            }
        }
    }
    black_box(store);
    frames
}

/// A preamble, a segment with its checksum, another one and an epilogue.
fn wire_length(length: usize) -> usize {
    32 + length + 4 + length + 13
}

fn floor_compare(frame: &[u8], length: usize) -> bool {
    let second = 32 + length + 4;
    let sum_at = |at: usize| u32::from_le_bytes(frame[at..at + 4].try_into().expect("four bytes"));
    let segment_sum = |at: usize| sums::by_16(mahuixen::SEGMENT_START, &frame[at..at + length]);
    sums::by_16(mahuixen::PREAMBLE_START, &frame[..28]) == sum_at(28)
        && segment_sum(32) == sum_at(32 + length)
        && segment_sum(second) == sum_at(second + length + 1)
}

fn receivers() {
    print_head("Receiver");
    let store = store();
    for length in LENGTHS {
        let whole = stream(length);
        let banner = mahuixen::BANNER_LENGTH;
        // One whole frame at least, so that there is something to report.
        let single = SINGLE_BYTES.max(banner + wire_length(length as usize));
        let pieces = [
            (whole.len(), whole.len(), "whole"),
            (whole.len(), PACKET, "pieces of 1,460"),
            (single, 1, "pieces of 1"),
        ];
        for (bytes, piece, of) in pieces {
            let stream = &whole[..bytes];
            let works: [&dyn Fn() -> usize; 3] = [
                &|| receive(stream, piece, &mut store.borrow_mut()),
                &|| {
                    let frames = &stream[banner..];
                    floor_receive(frames, length as usize, piece, &mut store.borrow_mut())
                },
                &|| second_receive(stream, piece, &mut store.borrow_mut()),
            ];
            let speeds = measure(bytes, works, works[2]());
            print_row(&format!("segments of {length}, {of}"), speeds);
        }
    }
}

/// Builds so many frames one behind the other into a send buffer, which starts
/// anew when it is full; answers the bytes written.
fn build(frames: usize, mut frame: impl FnMut(&mut [u8], usize) -> Option<usize>) -> usize {
    let mut buffer = vec![0; 2 * mahuixen::LONGEST_FRAME];
    let (mut queued, mut all) = (0, 0);
    for _ in 0..frames {
        let written = frame(&mut buffer, queued).or_else(|| {
            queued = 0;
            frame(&mut buffer, 0)
        });
        let written = written.expect("an empty buffer has room");
        queued += written;
        all += written;
    }
    black_box(&buffer);
    all
}

/// The least that can be done for a frame of these lengths: the segments are
/// copied, those of an aborted frame but the first are filled with zeros, and the
/// checksums are worked out.
fn floor_build(buffer: &mut [u8], lengths: [u32; 2], abort: bool, source: &[u8]) -> usize {
    let [one, two] = lengths.map(|length| length as usize);
    let first_sum = if one == 0 { 0 } else { 4 };
    let (second, written) = (32 + one + first_sum, 32 + one + first_sum + two + 13);
    let sum = sums::by_16(mahuixen::PREAMBLE_START, &buffer[..28]);
    buffer[28..32].copy_from_slice(&sum.to_le_bytes());
    buffer[32..32 + one].copy_from_slice(&source[..one]);
    if abort {
        buffer[second..second + two].fill(0);
    } else {
        buffer[second..second + two].copy_from_slice(&source[one..]);
    }
    for (from, length) in [(32, one), (second, two)] {
        let sum = sums::by_16(mahuixen::SEGMENT_START, &buffer[from..from + length]);
        let at = if from == second {
            second + two + 1
        } else {
            32 + one
        };
        buffer[at..at + 4].copy_from_slice(&sum.to_le_bytes());
    }
    written
}

/// Whole frames of two segments of the same length; or aborted ones, whose first
/// segment is empty, so that all the rest is zeros.
fn builders(title: &str, abort: bool) {
    print_head(title);
    let build_one = if abort {
        mahuixen::abort_frame
    } else {
        mahuixen::build_frame
    };
    for length in LENGTHS {
        let lengths = [if abort { 0 } else { length }, length];
        let source = source(lengths);
        let (header, request) = (header(lengths), request(lengths, abort, &source));
        let revision = mahuixen::Revision::Msgr21;
        let frames = (BYTES / source.len()).max(1);
        let library =
            |buffer: &mut [u8], queued| build_one(buffer, queued, revision, &header, &source).ok();
        let longest = wire_length(length as usize);
        let floor = |buffer: &mut [u8], queued| {
            let room = buffer.get_mut(queued..queued + longest)?;
            Some(floor_build(room, lengths, abort, &source))
        };
        let other = |buffer: &mut [u8], queued| {
            let built = second::builder::build_frame(&request, buffer, queued as u64);
            built.ok().map(|written| written as usize)
        };
        let works: [&dyn Fn() -> usize; 3] = [
            &|| build(frames, library),
            &|| build(frames, floor),
            &|| build(frames, other),
        ];
        let bytes = build(frames, other);
        print_row(
            &format!("segments of {length}"),
            measure(bytes, works, bytes),
        );
    }
}

type Checksum = fn(u32, &[u8]) -> u32;

/// Checksums of so many of the bytes, as often as it takes; each starts from the
/// one before, so that no two are worked out at the same time.
fn run_checksum(sum: Checksum, bytes: &[u8], times: usize) -> usize {
    (0..times).fold(0xFFFF_FFFF, |start, _| sum(start, black_box(bytes))) as usize
}

/// Megabytes in a second of each way to work out checksums of these lengths.
fn checksum_speeds<const N: usize>(ways: [Checksum; N], lengths: &[usize]) -> [f64; N] {
    let bytes = source([*lengths.last().expect("a length") as u32, 0]);
    let (mut all, mut seconds) = (0, [0.0; N]);
    for &length in lengths {
        let times = BYTES / lengths.len() / length.max(28) + 1;
        let expected = run_checksum(sums::bytewise, &bytes[..length], times);
        let mut measured = ways.map(|_| Vec::new());
        for _ in 0..RUNS {
            for (way, measured) in ways.iter().zip(&mut measured) {
                let work = || run_checksum(*way, &bytes[..length], times);
                measured.push(timed(work, expected));
            }
        }
        all += length * times;
        for (seconds, measured) in seconds.iter_mut().zip(measured) {
            *seconds += counted(measured);
        }
    }
    seconds.map(|seconds| all as f64 / 1e6 / seconds)
}

fn checksums() {
    println!(
        "\n| Checksum, MB/s | Library | Bytewise | By 8 | By 16 | Instruction | Library to by 16 |"
    );
    println!("|---|---|---|---|---|---|---|");
    let instruction = sums::instruction().unwrap_or(sums::by_16);
    let ways = [
        mahuixen::checksum,
        sums::bytewise,
        sums::by_8,
        sums::by_16,
        instruction,
    ];
    let print_speeds = |what: &str, lengths: &[usize]| {
        let speeds = checksum_speeds(ways, lengths);
        print!("| {what} |");
        speeds.iter().for_each(|speed| print!(" {speed:.0} |"));
        println!(" {:.2} |", speeds[0] / speeds[3]);
    };
    print_speeds("all of 0 to 64 bytes", &(0..=64).collect::<Vec<_>>());
    for length in SUMMED {
        print_speeds(&format!("{length} bytes"), &[length]);
    }
}

/// What a call costs that is offered a single byte, in nanoseconds.
fn single_bytes() {
    let stream = &stream(64)[..SINGLE_BYTES];
    let store = store();
    let run = || receive(stream, 1, &mut store.borrow_mut());
    let frames = run();
    let times = (0..RUNS).map(|_| timed(run, frames)).collect();
    let each = counted(times) * 1e9 / stream.len() as f64;
    println!("\nA call that is offered one byte took {each:.0} ns.");
}

fn main() {
    println!(
        "MB/s are 10^6 bytes a second, the tenth fastest of {RUNS} runs, all by turns. Frames are"
    );
    println!("those of msgr2.1 with two segments. The floor copies the bytes and works their");
    println!("checksums out by 16 in Rust, and does nothing else. The second program is written");
    println!("to be read and not to be fast: it gathers preambles, epilogues and whole frames in");
    println!("vectors, and works a checksum out byte by byte from a table of 256 words.");
    receivers();
    builders("Builder", false);
    builders("Builder of aborted frames", true);
    checksums();
    single_bytes();
    let state = std::mem::size_of::<State>();
    let report = std::mem::size_of::<sys::RawReport>();
    println!("A call is lent {state} bytes of state and {report} bytes for its report.");
}
