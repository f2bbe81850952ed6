//! Worked histories of a session, as `crates/session/specs/Worked.antt` has
//! them: the calls are written here or made up, the answers are this program's.

use super::{Message, Session};
use crate::random::Random;
use crate::refusal::Refusal;

enum Act {
    /// So many messages with the handles from the given one on, or up to the
    /// first that is refused.
    Send(u64, u64),
    Ack(u64),
    Reconnect(u64),
    Reset(bool),
    /// The message at a place of those held.
    Find(usize),
}

use Act::{Ack, Find, Reconnect, Reset, Send};

struct History {
    words: &'static str,
    /// The last number given before the first call.
    start: u64,
    acts: Vec<Act>,
}

fn history(words: &'static str, start: u64, acts: Vec<Act>) -> History {
    History { words, start, acts }
}

fn written() -> Vec<History> {
    vec![
        history(
            "the first number is 1",
            0,
            vec![Send(1, 7), Find(0), Find(1)],
        ),
        history(
            "an ack covers all up to its number",
            0,
            vec![Send(3, 10), Ack(2), Find(0), Find(1)],
        ),
        history(
            "an ack of nothing, and one above the last number",
            0,
            vec![Ack(0), Ack(1), Send(2, 10), Ack(3)],
        ),
        history(
            "an ack at or below the last one",
            0,
            vec![Send(4, 10), Ack(3), Ack(2), Ack(3), Ack(0)],
        ),
        history(
            "a full table, and a place that an ack frees",
            0,
            vec![Send(65, 100), Ack(1), Send(2, 7)],
        ),
        history(
            "all places used again",
            0,
            vec![Send(40, 100), Ack(40), Send(65, 500), Ack(100), Send(1, 9)],
        ),
        history(
            "a reconnect is an ack, and what is held is sent again",
            0,
            vec![Send(5, 10), Reconnect(2), Find(0), Find(2), Find(3)],
        ),
        history(
            "nothing is sent again on 23",
            0,
            vec![Send(2, 10), Reconnect(3), Reconnect(0), Reconnect(2)],
        ),
        history(
            "a full reset, and numbers go on",
            0,
            vec![
                Send(3, 10),
                Ack(1),
                Reset(true),
                Find(0),
                Ack(2),
                Send(1, 7),
            ],
        ),
        history(
            "another reset",
            0,
            vec![Send(3, 10), Reset(false), Send(1, 7), Reconnect(1)],
        ),
        history(
            "a full table is emptied by a full reset",
            0,
            vec![
                Send(64, 1),
                Reset(false),
                Send(1, 7),
                Reset(true),
                Send(1, 8),
            ],
        ),
        history(
            "the last number of all",
            u64::MAX - 1,
            vec![Send(2, 7), Ack(u64::MAX), Send(1, 9)],
        ),
        history(
            "25 before 22",
            u64::MAX - 64,
            vec![Send(65, 1), Reconnect(u64::MAX - 1)],
        ),
        history(
            "handles of any size",
            0,
            vec![Send(1, u64::MAX), Send(1, 0), Send(1, u64::MAX)],
        ),
    ]
}

/// A history of made-up calls, most of them near what is held.
fn made_up(seed: u64) -> History {
    let mut random = Random::new(seed);
    let start = random.pick(&[0, 0, u64::MAX - 30]);
    let mut session = Session::after(start);
    let mut acts = Vec::new();
    for _ in 0..24 {
        let last = session.last;
        let low = session.held.front().map_or(last, |oldest| oldest.number);
        let back = u64::from(random.between(0, 3));
        let near = low
            .saturating_sub(back)
            .saturating_add(random.u64() % (last.saturating_sub(low) + 5));
        let act = match random.between(0, 9) {
            0..=4 => Send(random.pick(&[1, 1, 2, 3, 16]), u64::from(random.u16())),
            5 | 6 => Ack(near),
            7 => Reconnect(near),
            8 => Reset(random.once_in(3)),
            _ => Find(random.between(0, 70) as usize),
        };
        play(&mut session, &act);
        acts.push(act);
    }
    History {
        words: "made-up calls",
        start,
        acts,
    }
}

fn refusal(refusal: Refusal) -> String {
    let [first, second, third] = refusal.detail;
    format!("Refused (row {} {first} {second} {third})", refusal.number)
}

/// Consecutive numbers with consecutive handles.
fn runs(messages: &[Message]) -> Vec<(u64, Message)> {
    let mut runs: Vec<(u64, Message)> = Vec::new();
    for &message in messages {
        match runs.last_mut() {
            Some((count, first))
                if message.number - first.number == *count
                    && message.handle.checked_sub(first.handle) == Some(*count) =>
            {
                *count += 1;
            }
            _ => runs.push((1, message)),
        }
    }
    runs
}

/// Does what an act says, and tells it and the answers in the table's words.
fn play(session: &mut Session, act: &Act) -> Vec<String> {
    match *act {
        Send(count, handle) => {
            let mut accepted = Vec::new();
            let mut turned_away = None;
            for handle in (0..count).map(|place| handle.wrapping_add(place)) {
                match session.accept(handle) {
                    Ok(number) => accepted.push(Message { number, handle }),
                    Err(why) => {
                        turned_away = Some(format!("accept {handle} ⇒ {}", refusal(why)));
                        break;
                    }
                }
            }
            let sends = runs(&accepted)
                .into_iter()
                .map(|(count, first)| format!("sends {count} {} {}", first.handle, first.number));
            sends.chain(turned_away).collect()
        }
        Ack(number) => {
            let said = session
                .ack(number)
                .map_or_else(refusal, |()| "Done".to_string());
            vec![format!("ack {number} ⇒ {said}")]
        }
        Reconnect(msg_seq) => {
            let said = session
                .reconnect(msg_seq)
                .map_or_else(refusal, |again| format!("Resend {}", again.len()));
            vec![format!("reconnect {msg_seq} ⇒ {said}")]
        }
        Reset(full) => {
            session.reset(full);
            vec![format!("reset {full} ⇒ Done")]
        }
        Find(place) => {
            let found = session.held().get(place).map_or_else(
                || "Beyond".to_string(),
                |message| format!("(At (message {} {}))", message.number, message.handle),
            );
            vec![format!("finds {place} {found}")]
        }
    }
}

fn line(history: &History) -> String {
    let mut session = Session::after(history.start);
    let told: Vec<String> = history
        .acts
        .iter()
        .flat_map(|act| play(&mut session, act))
        .map(|told| told + " ∷ ")
        .collect();
    let held: Vec<String> = runs(&session.held())
        .into_iter()
        .map(|(count, first)| format!("run {count} {} {}", first.number, first.handle))
        .collect();
    let held = if held.is_empty() {
        "[]".to_string()
    } else {
        held.join(" ++ ")
    };
    format!("history {} ({}[]) ({held})", history.start, told.concat())
}

/// The table's lines: a comment and a history, in turn.
pub fn table() -> Vec<String> {
    let made_up = (1..=6).map(made_up);
    let mut sign = "";
    let mut lines = Vec::new();
    for history in written().into_iter().chain(made_up) {
        lines.push(format!("    -- {}", history.words));
        lines.push(format!("    {sign}{}", line(&history)));
        sign = "∷ ";
    }
    lines.push("    ∷ []".to_string());
    lines
}

#[cfg(test)]
mod tests {
    use super::*;

    const PROVED: &str = concat!(
        env!("CARGO_MANIFEST_DIR"),
        "/../crates/session/specs/Worked.antt"
    );

    #[test]
    fn the_proved_table_has_the_same_answers() {
        let proved = std::fs::read_to_string(PROVED).expect("the proved table");
        let lines = proved
            .lines()
            .skip_while(|line| *line != "examples =")
            .skip(1)
            .take_while(|line| !line.is_empty());
        assert_eq!(lines.collect::<Vec<_>>(), table());
    }
}
