use super::*;
use crate::random::Random;

/// What became of each message, by the calls alone.
#[derive(Default)]
struct Tally {
    accepted: u64,
    acknowledged: u64,
    dropped: u64,
    open: Vec<Message>,
}

impl Tally {
    fn ack(&mut self, number: u64) {
        let before = self.open.len();
        self.open.retain(|message| message.number > number);
        self.acknowledged += (before - self.open.len()) as u64;
    }
}

#[test]
fn accepted_is_acknowledged_held_and_dropped() {
    let mut random = Random::new(13);
    let mut seen = [0; 3];
    for _ in 0..200 {
        let mut session = Session::after(0);
        let mut tally = Tally::default();
        for handle in 0..400 {
            let near = random.u64() % (session.last + 3);
            match random.between(0, 9) {
                0..=6 => match session.accept(handle) {
                    Ok(number) => {
                        tally.accepted += 1;
                        assert_eq!(number, tally.accepted);
                        tally.open.push(Message { number, handle });
                    }
                    Err(why) => {
                        assert_eq!(why.number, 22);
                        assert_eq!(tally.open.len(), HELD_LIMIT);
                    }
                },
                7 if session.ack(near).is_ok() => tally.ack(near),
                8 => match session.reconnect(near) {
                    Ok(again) => {
                        tally.ack(near);
                        assert_eq!(again, tally.open);
                    }
                    Err(why) => assert_eq!((why.number, near > session.last), (23, true)),
                },
                9 if random.once_in(8) => {
                    session.reset(true);
                    tally.dropped += tally.open.len() as u64;
                    tally.open.clear();
                }
                _ => session.reset(false),
            }
            assert_eq!(session.held(), tally.open);
            let held = session.held.len() as u64;
            assert_eq!(tally.accepted, tally.acknowledged + held + tally.dropped);
        }
        seen[0] += tally.accepted;
        seen[1] += tally.acknowledged;
        seen[2] += tally.dropped;
    }
    assert!(seen.iter().all(|&count| count > 1000), "{seen:?}");
}

#[test]
fn the_last_number_is_given_once() {
    let mut session = Session::after(u64::MAX - 1);
    assert_eq!(session.accept(1), Ok(u64::MAX));
    assert_eq!(session.accept(2), Err(Refusal::numbers_spent()));
    assert_eq!(session.held().len(), 1);
}
