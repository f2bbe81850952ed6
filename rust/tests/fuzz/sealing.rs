//! Sealing, opening and sealed builds, done by both.

use crate::builds::widened;
use crate::guarded::{Framed, Guarded};
use crate::same::{self, REFUSED};
use crate::tally::Tally;
use mahuixen::sys::{self, Built};
use mahuixen::{open, seal, Key, Nonce, RawSending, Sending, AUTH_TAG_LENGTH, SEALED_OVERHEAD};
use second::gcm;
use second::random::Random;
use second::records::{Build, BuildsRecord, Record, SealingRecord};
use second::secure::{part_lengths, Direction, Sending as Second};

const SEALED: &str = "sealed";
const OPENED: &str = "opened";

pub const KINDS: [&str; 4] = [SEALED, OPENED, REFUSED[14], REFUSED[17]];

const BUILT: &str = "sealed frames";
const ABORTED: &str = "aborted sealed frames";
const EXHAUSTED: &str = "builds that spend the last nonce";
const CONTRADICTION: &str = "contradictions, refused with 26";

pub const BUILD_KINDS: [&str; 12] = [
    BUILT,
    ABORTED,
    EXHAUSTED,
    CONTRADICTION,
    REFUSED[6],
    REFUSED[8],
    REFUSED[9],
    REFUSED[13],
    REFUSED[14],
    REFUSED[15],
    REFUSED[18],
    REFUSED[27],
];

type Call = fn(&[u8; 16], &[u8; 12], &[u8], &mut [u8]) -> Built;
type Theirs = fn(&[u8; 16], &[u8; 12], &[u8], &mut [u8]) -> Result<u64, second::refusal::Refusal>;

fn compare(random: &mut Random, record: &SealingRecord, ours: Call, theirs: Theirs) -> Built {
    let SealingRecord { key, nonce, .. } = record;
    let mut due = record.store.bytes();
    let answer = same::built(theirs(key, nonce, &record.bytes, &mut due));
    let held = Guarded::new(random, &record.bytes);
    let mut lent = Guarded::new(random, &record.store.bytes());
    assert_eq!(ours(key, nonce, held.content(), lent.lend()), answer);
    held.expect(&record.bytes, "text");
    lent.expect(&due, "out");
    answer
}

pub fn run(random: &mut Random, record: &Record, tally: &mut Tally) {
    let by_type = random.once_in(2);
    let (kind, (_, refusal)) = match record {
        Record::Seal(record) => {
            let typed: Call = |k, n, text, out| same::bare(seal(k, n, text, out));
            let ours = if by_type { typed } else { sys::seal };
            (SEALED, compare(random, record, ours, gcm::seal))
        }
        Record::Open(record) => {
            let typed: Call = |k, n, text, out| same::bare(open(k, n, text, out));
            let ours = if by_type { typed } else { sys::open };
            (OPENED, compare(random, record, ours, gcm::open))
        }
        _ => unreachable!("not among the records of sealing"),
    };
    tally.count(match refusal.number {
        0 => kind,
        number => REFUSED[number as usize],
    });
}

/// The nonce so many behind another.
pub fn moved(nonce: [u8; 12], parts: u64) -> [u8; 12] {
    let mut next = nonce;
    let counter = u64::from_le_bytes(nonce[4..].try_into().expect("eight bytes"));
    next[4..].copy_from_slice(&counter.wrapping_add(parts).to_le_bytes());
    next
}

/// The words that stand for a sending state of which so many parts were sealed,
/// where a refused switch did not hand it out.
fn words(record: &BuildsRecord, spent: u128) -> RawSending {
    if record.refused {
        return RawSending {
            refused: 1,
            ..RawSending::default()
        };
    }
    RawSending {
        exhausted: (spent >> 64) as u64,
        refused: 0,
        spent: spent as u64,
        key: Key(record.key),
        nonce: Nonce(moved(record.nonce, spent as u64)),
    }
}

/// A build by the crate's types or by bare numbers; answers what it left of the
/// sending state.
fn build(
    random: &mut Random,
    state: RawSending,
    build: &Build,
    source: &[u8],
    send: &mut [u8],
) -> (Built, RawSending) {
    let header = same::header(&build.frame);
    let queued = build.buffer.queued;
    if random.once_in(2) {
        let mut sending = Sending::from_raw(state);
        let built = match build.abort {
            false => sending.build(send, queued as usize, &header, source),
            true => sending.abort(send, queued as usize, &header, source),
        };
        return (same::bare(built), sending.into_raw());
    }
    let call = [sys::build_sealed, sys::abort_sealed][usize::from(build.abort)];
    let mut framed = Framed::new(state);
    let built = call(send, queued, &mut framed.it, &header.into(), source);
    (built, framed.taken_out())
}

/// A sending state that contradicts itself.
fn contradicting(random: &mut Random, mut state: RawSending) -> RawSending {
    let any = random.u64();
    match random.between(1, 6) {
        1 => state.exhausted = random.pick(&[2, any | 2]),
        2 => state.refused = random.pick(&[2, any | 2]),
        3 => (state.exhausted, state.spent) = (1, any | 1),
        4 => (state.refused, state.spent) = (1, any | 1),
        5 => (state.refused, state.key.0[random.between(0, 15) as usize]) = (1, random.u8() | 1),
        _ => (state.refused, state.nonce.0[random.between(0, 11) as usize]) = (1, random.u8() | 1),
    }
    state
}

/// A header or a sending state beyond its fields is 26, before all else, and
/// nothing changes.
fn contradicts(random: &mut Random, state: RawSending, one: &Build, send: &mut [u8]) {
    let header = same::header(&one.frame).into();
    let (header, state) = match random.once_in(2) {
        true => (widened(random, header), state),
        false => (header, contradicting(random, state)),
    };
    let before = send.to_vec();
    let call = [sys::build_sealed, sys::abort_sealed][usize::from(one.abort)];
    let mut framed = Framed::new(state.clone());
    let built = call(
        send,
        one.buffer.queued,
        &mut framed.it,
        &header,
        &one.source,
    );
    assert_eq!(built, (0, same::CONTRADICTS), "{state:?}");
    assert_eq!(framed.taken_out(), state);
    assert!(send == before, "a refused build changed the buffer");
}

/// The builds of a record with one sending state: bytes, answers and the state's
/// words after each.
pub fn builds(random: &mut Random, record: &BuildsRecord, tally: &mut Tally) {
    let mut theirs = match record.refused {
        true => Second::Refused,
        false => Second::Sealing(Direction::new(record.key, record.nonce, record.spent)),
    };
    let mut spent = u128::from(record.spent);
    for one in &record.builds {
        let mut due = one.buffer.bytes();
        let answer = same::built(theirs.build(&one.request(), &mut due, one.buffer.queued));
        let source = Guarded::new(random, &one.source);
        let mut send = Guarded::new(random, &one.buffer.bytes());
        if random.once_in(4) {
            contradicts(random, words(record, spent), one, send.lend());
            tally.count(CONTRADICTION);
        }
        let state = words(record, spent);
        let (built, left) = build(random, state, one, source.content(), send.lend());
        assert_eq!(built, answer);
        source.expect(&one.source, "source");
        send.expect(&due, "send buffer");
        if answer.1.number == 0 {
            assert!(answer.0 <= one.frame.sum() + SEALED_OVERHEAD as u64);
            spent += part_lengths(&one.frame).len() as u128;
        }
        assert_eq!(left, words(record, spent));
        tally.count(match (answer.1.number, one.abort) {
            (0, _) if spent == 1 << 64 => EXHAUSTED,
            (0, false) => BUILT,
            (0, true) => ABORTED,
            (number, _) => REFUSED[number as usize],
        });
    }
}

fn hex(text: &str) -> Vec<u8> {
    let digits = |at| u8::from_str_radix(&text[at..at + 2], 16).expect("hex digits");
    (0..text.len()).step_by(2).map(digits).collect()
}

/// Test cases 1 to 3 of "The Galois/Counter Mode of Operation (GCM)", those with
/// a 96-bit nonce and no associated data.
#[test]
fn published_vectors() {
    let zeros = (
        "00000000000000000000000000000000",
        "000000000000000000000000",
    );
    let third = (
        "feffe9928665731c6d6a8f9467308308",
        "cafebabefacedbaddecaf888",
    );
    let text = "d9313225f88406e5a55909c5aff5269a86a7a9531534f7da2e4c303d8a318a72\
                1c3c0c95956809532fcf0e2449a6b525b16aedf5aa0de657ba637b391aafd255";
    let masked = "42831ec2217774244b7221b784d0d49ce3aa212f2c02a4e035c17e2329aca12e\
                  21d514b25466931c7d8f6a5aac84aa051ba30b396a0aac973d58e091473f5985\
                  4d5c2af327cd64a62cf35abd2ba6fab4";
    let cases = [
        (zeros, "", "58e2fccefa7e3061367f1d57a4e7455a"),
        (
            zeros,
            "00000000000000000000000000000000",
            "0388dace60b6a392f328c2b971b2fe78ab6e47d42cec13bdf53a67b21257bddf",
        ),
        (third, text, masked),
    ];
    for ((key, nonce), text, sealed) in cases {
        let key = hex(key).try_into().expect("16 bytes");
        let nonce = hex(nonce).try_into().expect("12 bytes");
        let (text, sealed) = (hex(text), hex(sealed));
        let mut out = vec![0; sealed.len()];
        assert_eq!(seal(&key, &nonce, &text, &mut out), Ok(sealed.len()));
        assert_eq!(out, sealed);
        let mut back = vec![0; text.len()];
        assert_eq!(open(&key, &nonce, &sealed, &mut back), Ok(text.len()));
        assert_eq!(back, text);
    }
}

#[test]
fn the_tag_has_16_bytes() {
    assert_eq!(AUTH_TAG_LENGTH, gcm::AUTH_TAG_LENGTH);
}
