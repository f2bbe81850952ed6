//! What a state of the library means behind a switch, by docs/STATE.md: whether
//! it contradicts itself, and which second receiver is in the same place.

use crate::rebuilt::frame;
use crate::sealing::moved;
use mahuixen::sys::{RawHeader, RawRefusal, SealedState};
use mahuixen::{FirstPart, Header, Key, Nonce, Numbers, State};
use second::banner::Features;
use second::frame::{Frame, Segment, SEGMENTS};
use second::receiver::Receiver;
use second::report::Report;
use second::secure::{last_length, padded, rest_length, store_needed};
use second::secure::{Direction, Secrets, FIRST_PART_LENGTH, INLINE_LENGTH};
use second::wire::{frame_bytes, Revision};

pub const FIRST: u8 = 0;
pub const REST: u8 = 1;
pub const LAST: u8 = 2;
pub const REFUSED: u8 = 3;

/// A state in secure mode whose numbers are all of their fields' types.
#[derive(Clone, Copy, Debug)]
pub struct Fields {
    pub ready: bool,
    pub stage: u8,
    pub exhausted: bool,
    pub header: Header,
    pub refusal: Numbers,
    pub got: u64,
    pub opened: u64,
    pub first: [u8; FIRST_PART_LENGTH],
    pub key: [u8; 16],
    pub nonce: [u8; 12],
}

impl From<Fields> for State {
    fn from(fields: Fields) -> Self {
        let Numbers {
            number,
            first,
            second,
            third,
        } = fields.refusal;
        let sealed = SealedState {
            stage: fields.stage.into(),
            exhausted: fields.exhausted.into(),
            header: fields.header.into(),
            refusal: RawRefusal {
                number: number.into(),
                first,
                second,
                third,
            },
            got: fields.got,
            opened: fields.opened,
            first: FirstPart(fields.first),
            key: Key(fields.key),
            nonce: Nonce(fields.nonce),
        };
        Self {
            mode: 1,
            ready: fields.ready.into(),
            sealed,
            ..Self::default()
        }
    }
}

/// The fields of a state in secure mode, unless one of its numbers is beyond its
/// field.
fn fields(state: &State) -> Option<Fields> {
    let sealed = &state.sealed;
    let header = Header::from(sealed.header);
    let fields = Fields {
        ready: state.ready == 1,
        stage: u8::try_from(sealed.stage).ok()?,
        exhausted: sealed.exhausted == 1,
        header,
        refusal: Numbers::from(sealed.refusal),
        got: sealed.got,
        opened: sealed.opened,
        first: sealed.first.0,
        key: sealed.key.0,
        nonce: sealed.nonce.0,
    };
    let known = state.mode == 1 && fields.stage <= REFUSED;
    let marks = state.ready <= 1 && sealed.exhausted <= 1;
    let whole = RawHeader::from(header) == sealed.header && sealed.refusal.number <= 255;
    (known && marks && whole).then_some(fields)
}

pub fn in_frame(state: &Fields) -> bool {
    matches!(state.stage, REST | LAST)
}

/// Whether a part of segment 1 is behind the first part.
fn has_rest(state: &Fields) -> bool {
    state.header.segments[0].len as usize > INLINE_LENGTH
}

/// Parts of the frame under way that were opened.
fn parts_behind(state: &Fields) -> u128 {
    match state.stage {
        REST => 1,
        LAST => 1 + u128::from(has_rest(state)),
        _ => 0,
    }
}

/// All parts that were opened: 2^64 of them are one more than 64 bits can say.
fn opened(state: &Fields) -> u128 {
    u128::from(state.opened) + (u128::from(state.exhausted) << 64)
}

/// Bytes of the part under way, 0 where the frame has no such part.
pub fn size(state: &Fields) -> u64 {
    let length = match state.stage {
        FIRST => Some(FIRST_PART_LENGTH),
        REST => rest_length(&frame(&state.header)),
        LAST => last_length(&frame(&state.header)),
        _ => None,
    };
    length.unwrap_or(0) as u64
}

fn good_ready(state: &Fields) -> bool {
    !state.ready
}

fn good_receiving(state: &Fields) -> bool {
    let no_key = state.key == [0; 16] && state.nonce == [0; 12];
    let none_opened = state.opened == 0;
    match state.stage {
        REFUSED => no_key && none_opened && !state.exhausted,
        _ => !state.exhausted || none_opened,
    }
}

fn good_header(state: &Fields) -> bool {
    if !in_frame(state) {
        return state.header == Header::default();
    }
    let frame = frame(&state.header);
    let judged = [frame.judge_shape(), frame.judge_tag(), frame.judge_limits()];
    judged.iter().all(Result::is_ok)
}

fn good_refusal(state: &Fields) -> bool {
    let Numbers {
        number,
        second,
        third,
        ..
    } = state.refusal;
    if state.stage != REFUSED {
        return state.refusal == Numbers::default();
    }
    matches!(number, 5..=10 | 12 | 17..=19) && second == 0 && third == 0
}

fn good_count(state: &Fields) -> bool {
    match state.stage {
        REFUSED => state.got == 0,
        _ => state.got < size(state),
    }
}

fn good_block(state: &Fields) -> bool {
    let came = if state.stage == FIRST { state.got } else { 0 };
    let came = came.min(FIRST_PART_LENGTH as u64) as usize;
    state.first[came..].iter().all(|byte| *byte == 0)
}

/// The parts of the frame under way before this one were opened: its first, and
/// the rest of segment 1 where that has a part of its own.
fn good_opened(state: &Fields) -> bool {
    opened(state) >= parts_behind(state)
}

/// The fields of a state that agrees with itself.
pub fn agreeing(state: &State) -> Option<Fields> {
    let rules = [
        good_ready,
        good_receiving,
        good_header,
        good_refusal,
        good_count,
        good_block,
        good_opened, // take out where docs/STATE.md has no rule of opened parts
    ];
    fields(state).filter(|state| rules.iter().all(|rule| rule(state)))
}

/// What a live receiver with a frame under way needs of the store.
pub fn needed(state: &Fields) -> u64 {
    match in_frame(state) {
        true => store_needed(&frame(&state.header)) as u64,
        false => 0,
    }
}

/// A frame without a byte of its own.
fn empty() -> Frame {
    Frame {
        tag: 16,
        count: 1,
        segments: [Segment::default(); SEGMENTS],
    }
}

/// Has the receiver take bytes, which complete no report but these.
fn feed(receiver: &mut Receiver, bytes: &[u8], store: &mut [u8]) {
    let mut left = bytes;
    while !left.is_empty() {
        let (taken, report) = receiver.receive(left, store);
        let fine = !matches!(report, Report::Refused(_) | Report::Dropped(_));
        assert!(fine, "no way there, {report:?}");
        left = &left[taken..];
    }
}

/// The text of the first part, with the store's bytes of segment 1.
fn first_text(header: &Header, store: &[u8]) -> Vec<u8> {
    let inline = (header.segments[0].len as usize).min(INLINE_LENGTH);
    let mut text = frame(header).preamble().to_vec();
    text.extend(&store[..inline]);
    text.resize(FIRST_PART_LENGTH - 16, 0);
    text
}

/// The text of the part with the rest of segment 1.
fn rest_text(header: &Header, store: &[u8]) -> Vec<u8> {
    let mut text = store[INLINE_LENGTH..header.segments[0].len as usize].to_vec();
    text.resize(padded(text.len()), 0);
    text
}

/// A second receiver behind a crc frame, switched with this key and nonce, of which
/// so many are used.
fn switched(key: [u8; 16], start: [u8; 12], used: u64, store: &mut [u8]) -> Receiver {
    let own = Features::new(1, 0);
    let mut receiver = Receiver::start(own).0;
    let clear = frame_bytes(Revision::Msgr21, &empty(), false, &[]);
    feed(&mut receiver, &[own.banner(), clear].concat(), store);
    let secrets = Secrets {
        key,
        receiving: start,
        sending: [0; 12],
    };
    assert_eq!(receiver.switch_after(&secrets, used).1, Ok(()));
    receiver
}

/// A second receiver that was given a stream which leads to this state, with the
/// store as it is: a switch, so many parts, and what came of the one under way. The
/// state agrees with itself, is not refused and has the room that it needs.
pub fn rebuilt(state: &Fields, store: &[u8]) -> Receiver {
    let behind = parts_behind(state);
    let before = opened(state).saturating_sub(behind);
    // Of all nonces the last one is used by a frame of its own.
    let all_used = before >> 64 == 1;
    let used = if all_used { u64::MAX } else { before as u64 };
    let first_nonce = moved(state.nonce, (behind as u64).wrapping_neg());
    let start = moved(first_nonce, (before as u64).wrapping_neg());
    let mut scratch = store.to_vec();
    scratch.resize(store.len().max(32), 0);
    let mut receiver = switched(state.key, start, used, &mut scratch);
    let mut sealing = Direction::new(state.key, start, used);
    let mut stream = Vec::new();
    let mut seal = |text: &[u8]| stream.extend(sealing.seal(text).expect("a nonce is left"));
    if all_used {
        seal(&first_text(&Header::new(16, &[Default::default()]), &[]));
    }
    if behind > 0 {
        seal(&first_text(&state.header, store));
    }
    if behind > 1 {
        seal(&rest_text(&state.header, store));
    }
    let got = state.got as usize;
    stream.extend(match state.stage {
        FIRST => &state.first[..got],
        REST => &store[INLINE_LENGTH..INLINE_LENGTH + got],
        _ => &store[state.header.segments[0].len as usize..][..got],
    });
    feed(&mut receiver, &stream, &mut scratch);
    receiver
}
