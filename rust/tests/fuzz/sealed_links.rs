//! Both ends of a switched link: sealed frames come back as they were built,
//! however they are cut, and a sealed ack releases what it covers and nothing
//! before it is whole.

use mahuixen::{build_banner, build_frame, tag, Effect, Features, Header, Message};
use mahuixen::{Receiver, Refusal, Report, Revision, Segment, Sending, Session};
use second::random::Random;

fn bytes<const N: usize>(random: &mut Random) -> [u8; N] {
    std::array::from_fn(|_| random.u8())
}

/// The two sides' receivers and sending states, behind a banner and a crc frame.
fn switched(key: [u8; 16], nonces: [[u8; 12]; 2]) -> [(Receiver, Sending); 2] {
    let own = Features::new(1, 0);
    let header = Header::new(tag::AUTH_SIGNATURE, &[Segment::new(3, 8)]);
    let mut sent = [0; 200];
    let banner = build_banner(&mut sent, 0, own).expect("a banner");
    let frame = build_frame(&mut sent, banner, Revision::Msgr21, &header, b"abc").expect("a frame");
    [0, 1].map(|side| {
        let mut receiver = Receiver::start(own).expect("our own features");
        let mut store = [0; 64];
        let mut at = 0;
        while at < banner + frame {
            at += receiver
                .receive(&sent[at..banner + frame], &mut store)
                .taken;
        }
        let sending = receiver
            .switch(&key, &nonces[1 - side], &nonces[side])
            .expect("a switch");
        (receiver, sending)
    })
}

/// What is sealed comes back.
pub fn run(random: &mut Random) {
    let key = bytes(random);
    let nonces = [bytes(random), bytes(random)];
    let [(_, mut sending), (mut receiver, _)] = switched(key, nonces);
    let mut store = [0; 600];
    for _ in 0..4 {
        let used: Vec<Segment> = (0..random.between(1, 4))
            .map(|_| Segment::new(random.between(1, 120), 8))
            .collect();
        let header = Header::new(random.between(1, 20) as u8, &used);
        let source = random.bytes(header.total() as u32);
        let abort = used.len() > 1 && random.once_in(4);
        let mut wire = [0; 900];
        let length = if abort {
            sending.abort(&mut wire, 0, &header, &source)
        } else {
            sending.build(&mut wire, 0, &header, &source)
        }
        .expect("a sealed build");
        let mut at = 0;
        while at < length {
            let size = random.between(0, 200) as usize;
            let piece = &wire[at..length.min(at + size)];
            let received = receiver.receive(piece, &mut store);
            at += received.taken;
            let due = match (at == length && received.taken > 0, abort) {
                (false, _) => Report::More,
                (true, false) => Report::Frame(header),
                (true, true) => Report::Dropped(header),
            };
            assert_eq!(received.report, due);
        }
        if !abort {
            assert_eq!(&store[..source.len()], source);
        }
    }
    // What is not sealed with the next nonce is refused, and stays so.
    let damaged = receiver.receive(&[7; 96], &mut store).report;
    assert_eq!(damaged, Report::Refused(Refusal::AuthTag));
    assert_eq!(receiver.receive(&[], &mut store).report, damaged);
}

#[test]
fn a_sealed_ack_releases_when_it_is_whole() {
    let [(_, mut sending), (receiver, _)] = switched([5; 16], [[1; 12], [2; 12]]);
    let ack = Header::new(tag::ACK, &[Segment::new(8, 0)]);
    let mut wire = [0; 96];
    assert_eq!(
        sending.build(&mut wire, 0, &ack, &2u64.to_le_bytes()),
        Ok(96)
    );
    let held = |session: &Session| session.held(0).expect("a session of its own");
    for cut in 0..96 {
        let mut session = Session::start();
        for handle in 700..703 {
            session.accept(handle).expect("room");
        }
        let (mut receiver, mut store) = (receiver.clone(), [0; 64]);
        let (first, effect) = receiver.deliver(&mut session, &wire[..cut], &mut store);
        assert_eq!((first.taken, effect), (cut, Effect::Nothing));
        assert_eq!(
            held(&session),
            Some(Message {
                number: 1,
                handle: 700
            })
        );
        let (last, effect) = receiver.deliver(&mut session, &wire[cut..], &mut store);
        assert_eq!((last.report, effect), (Report::Frame(ack), Effect::Acked));
        assert_eq!(
            held(&session),
            Some(Message {
                number: 3,
                handle: 702
            })
        );
    }
    // With a byte changed anywhere it releases nothing.
    for at in 0..96 {
        let mut session = Session::start();
        session.accept(700).expect("room");
        let (mut receiver, mut damaged) = (receiver.clone(), wire);
        damaged[at] ^= 1;
        let (received, effect) = receiver.deliver(&mut session, &damaged, &mut [0; 64]);
        assert_eq!(
            (received.report, effect),
            (Report::Refused(Refusal::AuthTag), Effect::Nothing)
        );
        assert_eq!(
            held(&session),
            Some(Message {
                number: 1,
                handle: 700
            })
        );
    }
}
