//! The handshake of one side, a step for each tag that comes, and the mode
//! that a server picks.

use crate::refusal::Refusal;

#[derive(Clone, Copy, Debug, PartialEq, Eq)]
pub enum Side {
    Client,
    Server,
}

#[derive(Clone, Copy, Debug, PartialEq, Eq)]
pub enum State {
    Hello,
    Auth,
    More,
    Signature,
    Session,
    Ready,
    Closed,
    Wait,
    Standby,
}

impl State {
    pub fn name(self) -> &'static str {
        match self {
            State::Hello => "hello",
            State::Auth => "auth",
            State::More => "more",
            State::Signature => "signature",
            State::Session => "session",
            State::Ready => "ready",
            State::Closed => "closed",
            State::Wait => "wait",
            State::Standby => "standby",
        }
    }
}

/// What the caller says, packed as a case record has it: bits 0 and 1 a
/// server's auth request, bit 2 the signature, bit 3 features, bit 4 reconnect.
#[derive(Clone, Copy, Debug, PartialEq, Eq)]
pub struct Verdict(pub u8);

impl Verdict {
    fn says(self, bit: u8) -> bool {
        self.0 >> bit & 1 == 1
    }

    /// Where an auth request leads; `None` stays.
    fn auth(self) -> Option<State> {
        match self.0 & 3 {
            0 => None,
            1 => Some(State::More),
            2 => Some(State::Signature),
            _ => Some(State::Standby),
        }
    }
}

fn client(state: State, tag: u8) -> Option<State> {
    match state {
        State::Auth if matches!(tag, 3 | 4) => Some(State::Auth),
        State::Auth if tag == 6 => Some(State::Signature),
        State::Session => match tag {
            9 | 15 => Some(State::Ready),
            10 => Some(State::Closed),
            12..=14 => Some(State::Session),
            16 => Some(State::Wait),
            _ => None,
        },
        _ => None,
    }
}

fn server(state: State, tag: u8, verdict: Verdict) -> Option<State> {
    match (state, tag) {
        (State::Auth, 2) | (State::More, 5) => Some(verdict.auth().unwrap_or(state)),
        (State::Session, 8) if verdict.says(3) => Some(State::Ready),
        (State::Session, 8) => Some(State::Closed),
        (State::Session, 11) if verdict.says(4) => Some(State::Ready),
        (State::Session, 11) => Some(State::Session),
        _ => None,
    }
}

/// The state that a tag leads to. A refused one closes.
pub fn step(side: Side, state: State, tag: u8, verdict: Verdict) -> Result<State, Refusal> {
    let next = match (state, tag) {
        (State::Hello, 1) => Some(State::Auth),
        (State::Signature, 7) => verdict.says(2).then_some(State::Session),
        (State::Ready, 17..=20) => Some(State::Ready),
        _ => match side {
            Side::Client => client(state, tag),
            Side::Server => server(state, tag, verdict),
        },
    };
    next.ok_or_else(|| Refusal::unexpected_tag(tag))
}

/// The first of the client's modes that the server has.
pub fn pick(preferred: &[u32], own: &[u32]) -> Option<u32> {
    preferred.iter().copied().find(|mode| own.contains(mode))
}

#[cfg(test)]
mod tests {
    use super::*;

    const YES: Verdict = Verdict(0b1_1100);

    fn walk(side: Side, steps: &[(u8, Verdict)]) -> Vec<Result<State, Refusal>> {
        let mut state = State::Hello;
        let mut states = Vec::new();
        for &(tag, verdict) in steps {
            let next = step(side, state, tag, verdict);
            state = next.unwrap_or(State::Closed);
            states.push(next);
        }
        states
    }

    fn end(side: Side, tags: &[u8], verdict: Verdict) -> Result<State, Refusal> {
        let steps: Vec<_> = tags.iter().map(|&tag| (tag, verdict)).collect();
        *walk(side, &steps).last().expect("a step")
    }

    #[test]
    fn a_client_becomes_ready() {
        let tags = [1, 3, 4, 6, 7, 12, 13, 14, 9, 17, 20];
        assert_eq!(end(Side::Client, &tags, YES), Ok(State::Ready));
        assert_eq!(end(Side::Client, &[1, 6, 7, 15], YES), Ok(State::Ready));
        assert_eq!(end(Side::Client, &[1, 6, 7, 16], YES), Ok(State::Wait));
        assert_eq!(end(Side::Client, &[1, 6, 7, 10], YES), Ok(State::Closed));
    }

    #[test]
    fn a_bad_signature_closes() {
        let bad = Verdict(0b1_1010);
        let refused = Err(Refusal::unexpected_tag(7));
        assert_eq!(end(Side::Client, &[1, 6, 7], bad), refused);
        assert_eq!(end(Side::Server, &[1, 2, 7], bad), refused);
        assert_eq!(
            end(Side::Client, &[1, 6, 7, 7], bad),
            Err(Refusal::unexpected_tag(7))
        );
    }

    #[test]
    fn a_server_by_its_caller() {
        let says = |byte| Verdict(byte);
        let steps = [
            (1, says(0)),
            (2, says(0)),
            (2, says(1)),
            (5, says(0)),
            (5, says(2)),
            (7, says(4)),
            (11, says(0)),
            (8, says(0)),
            (8, says(31)),
        ];
        let states = walk(Side::Server, &steps);
        let ok = [
            State::Auth,
            State::Auth,
            State::More,
            State::More,
            State::Signature,
            State::Session,
            State::Session,
            State::Closed,
        ];
        assert!(states[..8].iter().zip(ok).all(|(a, b)| *a == Ok(b)));
        assert_eq!(states[8], Err(Refusal::unexpected_tag(8)));
    }

    #[test]
    fn the_clients_order_decides() {
        assert_eq!(pick(&[2, 1], &[1, 2]), Some(2));
        assert_eq!(pick(&[3, 1], &[2, 1]), Some(1));
        assert_eq!(pick(&[3], &[2, 1]), None);
        assert_eq!(pick(&[], &[1]), None);
    }
}
