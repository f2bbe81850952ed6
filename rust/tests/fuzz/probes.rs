//! Calls on states that no call handed out: changed in one field, or put
//! together from nothing.

use crate::guarded::{Framed, Guarded};
use crate::rebuilt::{has_first_sum, in_block, in_body, least, size, Meaning};
use crate::rebuilt::{Fields, PAYLOAD, PREAMBLE, REFUSED, REST, SKIP};
use crate::same;
use crate::sealed_states::{self, Fields as SealedFields};
use crate::tally::Tally;
use mahuixen::sys::{self, CrcState, RawRefusal, RawReport, SealedState};
use mahuixen::{Features, Header, Key, Nonce, Numbers, RawSending, Segment, State};
use second::random::Random;

const CONTRADICTION: &str = "contradictions, refused with 26";
const REPEATED: &str = "refusals repeated";
const NO_ROOM: &str = "stores too short for the state's frame";
const COMPARED: &str = "compared with a second receiver in the same place";
const SWITCHED: &str = "switches made";
const NOT_SWITCHED: &str = "switches refused with 27";
const NO_SWITCH: &str = "switches refused with 26";

pub const KINDS: [&str; 7] = [
    CONTRADICTION,
    REPEATED,
    NO_ROOM,
    COMPARED,
    SWITCHED,
    NOT_SWITCHED,
    NO_SWITCH,
];

/// What comes up behind a switch, where no other is to be made.
pub const SEALED_KINDS: [&str; 6] = [
    CONTRADICTION,
    REPEATED,
    NO_ROOM,
    COMPARED,
    NOT_SWITCHED,
    NO_SWITCH,
];

/// Each number of the part in use that its field may narrow, with the field's
/// bits, and the others.
fn numbers(state: &mut State) -> Vec<(&mut u64, u32)> {
    match state.mode {
        1 => sealed_numbers(state),
        _ => crc_numbers(state),
    }
}

fn sealed_numbers(state: &mut State) -> Vec<(&mut u64, u32)> {
    let SealedState {
        stage,
        exhausted,
        header,
        refusal,
        got,
        opened,
        first: _,
        key: _,
        nonce: _,
    } = &mut state.sealed;
    let mut numbers = vec![
        (&mut state.ready, 1),
        (stage, 2),
        (exhausted, 1),
        (&mut header.tag, 8),
        (&mut header.count, 8),
        (&mut refusal.number, 8),
        (&mut refusal.first, 64),
        (&mut refusal.second, 64),
        (&mut refusal.third, 64),
        (got, 64),
        (opened, 64),
    ];
    for segment in &mut header.segments {
        numbers.push((&mut segment.len, 32));
        numbers.push((&mut segment.align, 16));
    }
    numbers
}

fn crc_numbers(state: &mut State) -> Vec<(&mut u64, u32)> {
    let State {
        mode: _,
        ready,
        crc,
        sealed: _,
    } = state;
    let CrcState {
        stage,
        revision,
        first,
        payload,
        header,
        refusal,
        got,
        own,
        peer,
        block: _,
    } = crc;
    let mut numbers = vec![
        (ready, 1),
        (stage, 4),
        (revision, 1),
        (first, 1),
        (payload, 16),
        (&mut header.tag, 8),
        (&mut header.count, 8),
        (&mut refusal.number, 8),
        (&mut refusal.first, 64),
        (&mut refusal.second, 64),
        (&mut refusal.third, 64),
        (got, 64),
        (&mut own.supported, 64),
        (&mut own.required, 64),
        (&mut peer.supported, 64),
        (&mut peer.required, 64),
    ];
    for segment in &mut header.segments {
        numbers.push((&mut segment.len, 32));
        numbers.push((&mut segment.align, 16));
    }
    numbers
}

/// Flips a bit of a number, mostly one of its field's.
fn flip_a_bit(random: &mut Random, state: &mut State) {
    let mut numbers = numbers(state);
    let chosen = random.between(0, numbers.len() as u32 - 1) as usize;
    let (number, bits) = numbers.swap_remove(chosen);
    let last = if random.once_in(6) { 63 } else { bits - 1 };
    *number ^= 1 << random.between(0, last);
}

pub fn change(random: &mut Random, state: &mut State) {
    match state.mode {
        1 => change_sealed(random, state),
        _ => change_crc(random, state),
    }
}

fn change_sealed(random: &mut Random, state: &mut State) {
    let (any, small) = (u64::from(random.u8()), u64::from(random.between(0, 100)));
    let sealed = &mut state.sealed;
    match random.between(1, 14) {
        1 => sealed.stage = random.between(0, 4).into(),
        2 => sealed.stage = random.pick(&[4, 255, any, u64::MAX]),
        3 => sealed.exhausted = random.pick(&[0, 1, 2, any]),
        4 => sealed.got = random.pick(&[0, 1, small, small, u64::MAX]),
        5 => sealed.opened = random.pick(&[0, 1, 2, any, u64::MAX]),
        6 => {
            let place = random.between(0, 95) as usize;
            sealed.first.0[place] ^= 1 << random.between(0, 7);
        }
        7 => sealed.key.0[random.between(0, 15) as usize] ^= 1 << random.between(0, 7),
        8 => sealed.nonce.0[random.between(0, 11) as usize] ^= 1 << random.between(0, 7),
        9 => state.ready = random.pick(&[0, 1, 2, any]),
        10 => state.mode = random.pick(&[0, 2, 3, 255, u64::MAX]),
        _ => flip_a_bit(random, state),
    }
}

fn change_crc(random: &mut Random, state: &mut State) {
    let (any, small) = (u64::from(random.u8()), u64::from(random.between(0, 40)));
    match random.between(1, 11) {
        1 => state.crc.stage = random.between(0, 10).into(),
        2 => state.crc.stage = random.pick(&[10, 255, any, u64::MAX]),
        3 => state.crc.revision = random.pick(&[0, 1, 2, any]),
        4 => state.crc.got = random.pick(&[0, 1, 3, small, small, u64::MAX]),
        5 => state.crc.first = random.pick(&[0, 1, 2, any]),
        6 => {
            let place = random.between(0, 31) as usize;
            state.crc.block.0[place] ^= 1 << random.between(0, 7);
        }
        7 => state.ready = random.pick(&[0, 1, 2, any]),
        8 => state.mode = random.pick(&[1, 2, 3, 255, u64::MAX]),
        _ => flip_a_bit(random, state),
    }
}

/// Changes a field or two of the state and makes the call on it.
pub fn changed(
    random: &mut Random,
    mut state: State,
    piece: &[u8],
    store: &[u8],
    tally: &mut Tally,
) {
    for _ in 0..random.pick(&[1, 1, 1, 2]) {
        change(random, &mut state);
    }
    probe(random, state, piece, store, tally);
}

/// Our features, and those of a peer that goes with them.
fn any_features(random: &mut Random) -> [Features; 2] {
    let any = random.u64();
    let (supported, required) = random.pick(&[(0, 0), (1, 0), (1, 0), (1, 0), (1, 1)]);
    let bits = random.pick(&[1, 1, 1, 0, any]) | required;
    let needs = random.pick(&[0, 0, 1]) & supported;
    [
        Features::new(supported, required),
        Features::new(bits, needs),
    ]
}

fn any_header(random: &mut Random) -> Header {
    let used = random.between(1, 4) as usize;
    let mut segments = [Segment::default(); 4];
    for segment in &mut segments[..used] {
        let any = random.u32();
        let some = [0, 1, 2, 5, any % 9, any % 60];
        segment.len = random.pick(&some);
        segment.align = random.u16();
    }
    let last = &mut segments[used - 1];
    last.len = last.len.max(u32::from(!random.once_in(8)));
    let any = random.u8();
    Header {
        tag: random.pick(&[1, 17, 20, 1 + any % 20, any]),
        count: random.pick(&[used as u8, used as u8, used as u8, any % 6]),
        segments,
    }
}

fn any_refusal(random: &mut Random) -> Numbers {
    let any = random.u8();
    let number = random.pick(&[1 + any % 12, 1 + any % 12, 3, 4, 16, 24, 26, any]);
    let more = if matches!(number, 3 | 4) || random.once_in(12) {
        [random.u64(), random.u64()]
    } else {
        [0; 2]
    };
    Numbers {
        number,
        first: random.u64(),
        second: more[0],
        third: more[1],
    }
}

/// How many bytes of its stage came to a state, and those of them that are in
/// its block.
fn fill(random: &mut Random, state: &mut Fields) {
    let (least, size) = (least(state), size(state));
    if state.stage == REFUSED || least >= size {
        return;
    }
    let most = (size - 1).min(u64::from(u32::MAX)) as u32;
    state.got = random.between(least as u32, most) as usize;
    if in_block(state) {
        state.block[..state.got].fill_with(|| random.u8());
    }
}

/// A state in any stage, with what the stage uses: it mostly agrees with itself.
fn any_state(random: &mut Random) -> Fields {
    let [own, peer] = any_features(random);
    let payload = random.between(17, 40) as u16;
    let mut state = Fields {
        own,
        stage: random.between(0, u32::from(REFUSED)) as u8,
        ..Fields::default()
    };
    if state.stage == REFUSED {
        state.refusal = any_refusal(random);
        return state;
    }
    if state.stage >= PAYLOAD {
        state.payload = random.pick(&[16, payload, payload, 1_024]);
    }
    if state.stage >= SKIP {
        state.peer = peer;
    }
    if state.stage >= PREAMBLE {
        state.revision = (own.supported & peer.supported & 1) as u8;
    }
    if in_body(&state) {
        state.header = any_header(random);
        state.first = u8::from(state.stage >= REST && has_first_sum(&state));
    }
    if state.stage == PREAMBLE && random.once_in(3) {
        state.ready = 1;
        return state;
    }
    fill(random, &mut state);
    state
}

/// A state behind a switch, with what its stage uses: it mostly agrees with
/// itself.
fn any_sealed_state(random: &mut Random) -> SealedFields {
    let any = random.u64();
    let mut state = SealedFields {
        ready: false,
        stage: random.between(0, 3) as u8,
        exhausted: random.once_in(6),
        header: Header::default(),
        refusal: Numbers::default(),
        got: 0,
        opened: 0,
        first: [0; 96],
        key: [0; 16],
        nonce: [0; 12],
    };
    if state.stage == sealed_states::REFUSED {
        let low = any as u8;
        state.exhausted = random.once_in(12);
        state.refusal = any_refusal(random);
        state.refusal.number = random.pick(&[5 + low % 6, 12, 17, 18, 19, low % 30]);
        return state;
    }
    state.key.fill_with(|| random.u8());
    state.nonce.fill_with(|| random.u8());
    if !state.exhausted || random.once_in(8) {
        let few = u64::from(random.between(0, 3));
        state.opened = random.pick(&[few, few, any, u64::MAX - few, u64::MAX]);
    }
    if sealed_states::in_frame(&state) {
        state.header = any_header(random);
        let first = &mut state.header.segments[0].len;
        let long = random.between(49, 80);
        *first = random.pick(&[*first, *first, 47, 48, 49, 64, 70]);
        if state.stage == sealed_states::REST && !random.once_in(6) {
            *first = long;
        }
    }
    fill_sealed(random, &mut state);
    state
}

/// How many bytes of its part came to a state, and those of a first part.
fn fill_sealed(random: &mut Random, state: &mut SealedFields) {
    let size = sealed_states::size(state);
    state.got = u64::from(random.between(0, size.saturating_sub(1) as u32));
    if state.stage == sealed_states::FIRST {
        state.first[..state.got as usize].fill_with(|| random.u8());
    }
}

/// Makes a call on a state put together from nothing.
pub fn put_together(random: &mut Random, tally: &mut Tally) {
    let state = State::from(any_state(random));
    probe_near(random, state, 90, tally);
}

/// The same for one behind a switch.
pub fn put_together_sealed(random: &mut Random, tally: &mut Tally) {
    let state = State::from(any_sealed_state(random));
    probe_near(random, state, 330, tally);
}

/// Makes a call on the state, or on one that differs in a field or two, with a
/// store of at most so many bytes.
fn probe_near(random: &mut Random, mut state: State, most: u32, tally: &mut Tally) {
    for _ in 0..random.pick(&[0, 0, 0, 1, 2]) {
        change(random, &mut state);
    }
    let (offered, length) = (random.between(0, 130), random.between(0, most));
    let piece = random.bytes(offered);
    let store = random.bytes(length);
    probe(random, state, &piece, &store, tally);
}

/// What a call left: the state, its report and the store.
struct Left {
    state: State,
    report: RawReport,
    store: Vec<u8>,
}

/// Makes the call and checks that it stayed inside what it was lent.
fn call(random: &mut Random, state: State, piece: &[u8], store: &[u8]) -> Left {
    let held = Guarded::new(random, piece);
    let mut lent = Guarded::new(random, store);
    let mut framed = Framed::new(state);
    let report = sys::receive(&mut framed.it, held.content(), lent.lend());
    let state = framed.taken_out();
    held.expect(piece, "piece");
    let store = lent.content().to_vec();
    lent.expect(&store, "store");
    Left {
        state,
        report,
        store,
    }
}

/// The report of a call that takes nothing and refuses.
fn refused(refusal: RawRefusal) -> RawReport {
    RawReport {
        kind: 4,
        refusal,
        ..RawReport::default()
    }
}

fn plain(number: u64, first: u64) -> RawRefusal {
    RawRefusal {
        number,
        first,
        ..RawRefusal::default()
    }
}

/// The refusal that a state of this meaning gives before it takes a byte.
pub fn at_once(state: &State, meaning: &Option<Meaning>, store: usize) -> Option<RawRefusal> {
    let Some(meaning) = meaning else {
        return Some(same::CONTRADICTS);
    };
    let kept = [state.crc.refusal, state.sealed.refusal][usize::from(state.mode == 1)];
    let short = (store as u64) < meaning.needed();
    match meaning.is_refused() {
        true => Some(kept),
        false => short.then(|| plain(10, meaning.needed())),
    }
}

/// Makes the call and holds it to what is due of this state.
fn probe(random: &mut Random, state: State, piece: &[u8], store: &[u8], tally: &mut Tally) {
    let left = call(random, state, piece, store);
    let meaning = Meaning::of(&state);
    if random.once_in(3) {
        switch(random, state, &meaning, tally);
    }
    if let Some(refusal) = at_once(&state, &meaning, store.len()) {
        assert_eq!(left.report, refused(refusal), "{state:?}");
        assert!(
            left.store == store,
            "a call that takes nothing changed the store"
        );
    }
    let Some(meaning) = meaning else {
        tally.count(CONTRADICTION);
        assert_eq!(left.state, state);
        return;
    };
    let after = Meaning::of(&left.state);
    assert!(after.is_some(), "{state:?} gave {:?}", left.state);
    if meaning.is_refused() {
        tally.count(REPEATED);
        assert_eq!(left.state, state);
    } else if (store.len() as u64) < meaning.needed() {
        tally.count(NO_ROOM);
        again(random, &left, piece);
    } else {
        tally.count(COMPARED);
        follow(random, state, meaning.rebuilt(store), piece, store);
    }
}

/// Tries to switch in this state: 26 exactly where it contradicts itself, 27 where
/// none is to be made, and every word of the two states.
fn switch(random: &mut Random, state: State, meaning: &Option<Meaning>, tally: &mut Tally) {
    let key: [u8; 16] = std::array::from_fn(|_| random.u8());
    let [receiving_nonce, sending_nonce]: [[u8; 12]; 2] =
        std::array::from_fn(|_| std::array::from_fn(|_| random.u8()));
    let mut framed = Framed::new(state);
    let (sending, number) = sys::switch(&mut framed.it, &key, &receiving_nonce, &sending_nonce);
    let may_switch = meaning.as_ref().map(Meaning::may_switch);
    let (due, kind) = match may_switch {
        None => (26, NO_SWITCH),
        Some(false) => (27, NOT_SWITCHED),
        Some(true) => (0, SWITCHED),
    };
    tally.count(kind);
    assert_eq!(number, due, "{state:?}");
    let (mut after, mut handed) = (state, RawSending::default());
    if number == 0 {
        (after.mode, after.ready) = (1, 0);
        after.sealed = SealedState {
            key: Key(key),
            nonce: Nonce(receiving_nonce),
            ..SealedState::default()
        };
        (handed.key, handed.nonce) = (Key(key), Nonce(sending_nonce));
    } else {
        handed.refused = 1;
    }
    assert_eq!((framed.taken_out(), sending), (after, handed));
}

/// A refusal is repeated, whatever is offered.
fn again(random: &mut Random, left: &Left, piece: &[u8]) {
    let repeated = call(random, left.state, piece, &left.store);
    assert_eq!(repeated.report, left.report);
    assert_eq!(repeated.state, left.state);
    assert!(
        repeated.store == left.store,
        "a repeated refusal changed the store"
    );
}

/// Both receivers go on from the same place, until nothing is left to take.
fn follow(
    random: &mut Random,
    mut state: State,
    mut second: second::receiver::Receiver,
    piece: &[u8],
    store: &[u8],
) {
    let (mut left, mut expected) = (piece, store.to_vec());
    loop {
        let after = call(random, state, left, &expected);
        let (taken, report) = second.receive(left, &mut expected);
        assert_eq!(after.report, same::raw(taken, &report));
        assert!(after.store == expected, "not the second receiver's store");
        state = after.state;
        left = &left[taken..];
        if taken == 0 || left.is_empty() {
            return;
        }
    }
}
