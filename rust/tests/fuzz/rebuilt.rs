//! What a state of the library means, by docs/STATE.md: whether it contradicts
//! itself, and which second receiver is in the same place. Here those on a crc
//! link; `sealed_states` has those behind a switch.

use crate::sealed_states;
use mahuixen::sys::{CrcState, RawHeader, RawRefusal};
use mahuixen::{Block, Features, Header, Numbers, State};
use second::banner::{judge_payload_length, Features as SecondFeatures};
use second::checksum::{checksum, SEGMENT_START};
use second::frame::{Frame, Segment};
use second::receiver::Receiver;
use second::report::Report;
use second::wire::{epilogue_length, Revision};

pub const MAGIC: u8 = 0;
pub const PAYLOAD: u8 = 2;
pub const SKIP: u8 = 3;
pub const PREAMBLE: u8 = 4;
pub const FIRST: u8 = 5;
pub const FIRST_SUM: u8 = 6;
pub const REST: u8 = 7;
pub const EPILOGUE: u8 = 8;
pub const REFUSED: u8 = 9;

/// A state whose numbers are all of their fields' types.
#[derive(Clone, Copy, Debug, Default)]
pub struct Fields {
    pub ready: u8,
    pub stage: u8,
    pub revision: u8,
    pub first: u8,
    pub payload: u16,
    pub header: Header,
    pub refusal: Numbers,
    pub got: usize,
    pub own: Features,
    pub peer: Features,
    pub block: [u8; 32],
}

impl From<Fields> for State {
    fn from(fields: Fields) -> Self {
        let Numbers {
            number,
            first,
            second,
            third,
        } = fields.refusal;
        let crc = CrcState {
            stage: fields.stage.into(),
            revision: fields.revision.into(),
            first: fields.first.into(),
            payload: fields.payload.into(),
            header: fields.header.into(),
            refusal: RawRefusal {
                number: number.into(),
                first,
                second,
                third,
            },
            got: fields.got as u64,
            own: fields.own,
            peer: fields.peer,
            block: Block(fields.block),
        };
        Self {
            ready: fields.ready.into(),
            crc,
            ..Self::default()
        }
    }
}

/// The fields of a state on a crc link, unless one of its numbers is beyond its
/// field.
fn fields(state: &State) -> Option<Fields> {
    let crc = &state.crc;
    let header = Header::from(crc.header);
    let fields = Fields {
        ready: u8::try_from(state.ready).ok()?,
        stage: u8::try_from(crc.stage).ok()?,
        revision: u8::try_from(crc.revision).ok()?,
        first: u8::try_from(crc.first).ok()?,
        payload: u16::try_from(crc.payload).ok()?,
        header,
        refusal: Numbers::from(crc.refusal),
        got: crc.got as usize,
        own: crc.own,
        peer: crc.peer,
        block: crc.block.0,
    };
    let marks = fields.revision <= 1 && fields.first <= 1 && fields.ready <= 1;
    let known = state.mode == 0 && fields.stage <= REFUSED && marks;
    let whole = RawHeader::from(header) == crc.header && crc.refusal.number <= 255;
    (known && whole).then_some(fields)
}

fn features(features: Features) -> SecondFeatures {
    SecondFeatures::new(features.supported, features.required)
}

pub fn frame(header: &Header) -> Frame {
    let segments = header.segments.map(|s| Segment {
        length: s.len,
        alignment: s.align,
    });
    Frame {
        tag: header.tag,
        count: header.count,
        segments,
    }
}

fn revision(state: &Fields) -> Revision {
    match state.revision {
        0 => Revision::Msgr20,
        _ => Revision::Msgr21,
    }
}

/// Whether a body is under way, which needs its room in the store.
pub fn in_body(state: &Fields) -> bool {
    (FIRST..=EPILOGUE).contains(&state.stage)
}

/// Whether the stage is this one or a later one, and nothing is refused.
fn live_from(stage: u8, state: &Fields) -> bool {
    (stage..REFUSED).contains(&state.stage)
}

/// Whether segment 1 has its checksum behind it.
pub fn has_first_sum(state: &Fields) -> bool {
    state.revision == 1 && state.header.segments[0].len > 0
}

/// Behind a reported frame the next preamble is not begun.
fn good_ready(state: &Fields) -> bool {
    state.ready == 0 || (state.stage == PREAMBLE && state.got == 0)
}

fn good_own(state: &Fields) -> bool {
    let start_refused = state.stage == REFUSED && state.refusal.number == 16;
    start_refused || features(state.own).judge_own().is_ok()
}

fn good_payload(state: &Fields) -> bool {
    match live_from(PAYLOAD, state) {
        true => judge_payload_length(state.payload).is_ok(),
        false => state.payload == 0,
    }
}

fn good_peer(state: &Fields) -> bool {
    live_from(SKIP, state) || state.peer == Features::default()
}

fn good_revision(state: &Fields) -> bool {
    match live_from(PREAMBLE, state) {
        true => features(state.own).judge_peer(&features(state.peer)) == Ok(revision(state)),
        false => state.revision == 0,
    }
}

fn good_header(state: &Fields) -> bool {
    if !in_body(state) {
        return state.header == Header::default();
    }
    let frame = frame(&state.header);
    let judged = [frame.judge_shape(), frame.judge_tag(), frame.judge_limits()];
    judged.iter().all(Result::is_ok)
}

fn good_first(state: &Fields) -> bool {
    let about_first = matches!(state.stage, FIRST | FIRST_SUM);
    let behind_first = matches!(state.stage, REST | EPILOGUE) && has_first_sum(state);
    (!about_first || has_first_sum(state)) && (state.first == 1) == behind_first
}

fn good_refusal(state: &Fields) -> bool {
    let Numbers {
        number,
        second,
        third,
        ..
    } = state.refusal;
    if state.stage != REFUSED {
        return state.refusal == Numbers::default();
    }
    let alone = second == 0 && third == 0;
    matches!(number, 3 | 4) || (alone && matches!(number, 1..=12 | 16 | 24))
}

/// Bytes of the state's stage.
pub fn size(state: &Fields) -> u64 {
    match state.stage {
        0 => 8,
        1 => 2,
        PAYLOAD => 16,
        SKIP => u64::from(state.payload).saturating_sub(16),
        PREAMBLE => 32,
        FIRST => u64::from(state.header.segments[0].len),
        FIRST_SUM => 4,
        REST => state.header.total(),
        _ => epilogue_length(revision(state), &frame(&state.header)) as u64,
    }
}

/// So many bytes of the stage came at least.
pub fn least(state: &Fields) -> u64 {
    match state.stage {
        REST if has_first_sum(state) => u64::from(state.header.segments[0].len),
        _ => 0,
    }
}

fn good_count(state: &Fields) -> bool {
    let got = state.got as u64;
    match state.stage {
        REFUSED => got == 0,
        _ => (least(state)..size(state)).contains(&got),
    }
}

/// Whether the stage's bytes go into the block.
pub fn in_block(state: &Fields) -> bool {
    !matches!(state.stage, SKIP | FIRST | REST | REFUSED)
}

fn good_block(state: &Fields) -> bool {
    let came = if in_block(state) { state.got } else { 0 };
    state.block.iter().skip(came).all(|byte| *byte == 0)
}

/// The fields of a state on a crc link that agrees with itself.
fn agreeing(state: &State) -> Option<Fields> {
    let rules = [
        good_ready,
        good_own,
        good_payload,
        good_peer,
        good_revision,
        good_header,
        good_first,
        good_refusal,
        good_count,
        good_block,
    ];
    fields(state).filter(|state| rules.iter().all(|rule| rule(state)))
}

/// A state that agrees with itself.
pub enum Meaning {
    Crc(Fields),
    Sealed(sealed_states::Fields),
}

impl Meaning {
    /// None where the state contradicts itself.
    pub fn of(state: &State) -> Option<Self> {
        let crc = || agreeing(state).map(Self::Crc);
        crc().or_else(|| sealed_states::agreeing(state).map(Self::Sealed))
    }

    pub fn is_refused(&self) -> bool {
        match self {
            Self::Crc(fields) => fields.stage == REFUSED,
            Self::Sealed(fields) => fields.stage == sealed_states::REFUSED,
        }
    }

    /// What the state's frame needs of the store.
    pub fn needed(&self) -> u64 {
        match self {
            Self::Crc(fields) => needed(fields),
            Self::Sealed(fields) => sealed_states::needed(fields),
        }
    }

    /// A second receiver in the same place; the state is live and has its room.
    pub fn rebuilt(&self, store: &[u8]) -> Receiver {
        match self {
            Self::Crc(fields) => rebuilt(fields, store),
            Self::Sealed(fields) => sealed_states::rebuilt(fields, store),
        }
    }

    /// Whether a switch is made: behind a frame of a msgr2.1 stream.
    pub fn may_switch(&self) -> bool {
        match self {
            Self::Crc(fields) => fields.ready == 1 && fields.revision == 1,
            Self::Sealed(_) => false,
        }
    }
}

/// The bytes of a banner up to where the state is.
fn banner_so_far(state: &Fields) -> Vec<u8> {
    let block = state.block.iter().take(state.got).copied();
    let peer = [state.peer.supported, state.peer.required];
    let mut bytes = b"ceph v2\n".to_vec();
    match state.stage {
        MAGIC => bytes.clear(),
        1 => {}
        _ => bytes.extend(state.payload.to_le_bytes()),
    }
    if state.stage == SKIP {
        bytes.extend(peer.into_iter().flat_map(u64::to_le_bytes));
        bytes.resize(bytes.len() + state.got, 0);
    } else {
        bytes.extend(block);
    }
    bytes
}

/// The segment bytes so far, out of the store, with segment 1's checksum where
/// msgr2.1 has one.
fn segments_so_far(state: &Fields, store: &[u8]) -> Vec<u8> {
    let first = state.header.segments[0].len as usize;
    let stored = match state.stage {
        FIRST | REST => &store[..state.got],
        FIRST_SUM => &store[..first],
        _ => &store[..state.header.total() as usize],
    };
    if state.first == 0 {
        return stored.to_vec();
    }
    let (segment, others) = stored.split_at(first);
    let sum = checksum(SEGMENT_START, segment).to_le_bytes();
    [segment, &sum, others].concat()
}

/// The bytes of a frame up to where the state is.
fn frame_so_far(state: &Fields, store: &[u8]) -> Vec<u8> {
    let mut bytes = Vec::new();
    if in_body(state) {
        bytes.extend(frame(&state.header).preamble());
        bytes.extend(segments_so_far(state, store));
    }
    if in_block(state) {
        bytes.extend(&state.block[..state.got]);
    }
    bytes
}

/// The whole banner of the state's peer.
fn banner(state: &Fields) -> Vec<u8> {
    let mut bytes = features(state.peer).banner();
    bytes[8..10].copy_from_slice(&state.payload.to_le_bytes());
    bytes.resize(10 + usize::from(state.payload), 0xB5);
    bytes
}

/// A second receiver that was given a stream which leads to this state, with
/// the store as it is. The state agrees with itself, is not refused, and has
/// the room it needs: to each such state a stream leads.
fn rebuilt(state: &Fields, store: &[u8]) -> Receiver {
    let stream = match state.stage {
        0..PREAMBLE => banner_so_far(state),
        _ => [banner(state), frame_so_far(state, store)].concat(),
    };
    let (mut receiver, started) = Receiver::start(features(state.own));
    assert_eq!(started, Ok(()), "{state:?}");
    let mut kept = store.to_vec();
    let mut left = stream.as_slice();
    while !left.is_empty() {
        let (taken, report) = receiver.receive(left, &mut kept);
        let fine = matches!(
            report,
            Report::More | Report::Banner { .. } | Report::First(_)
        );
        assert!(fine, "{state:?}: no way there, {report:?}");
        left = &left[taken..];
    }
    assert!(kept == store, "the store's own bytes were put back");
    receiver
}

/// What a live receiver that has a body under way needs of the store.
fn needed(state: &Fields) -> u64 {
    if in_body(state) {
        state.header.total()
    } else {
        0
    }
}
