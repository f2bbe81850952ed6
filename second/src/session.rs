//! A session: the messages sent and not yet acknowledged, in a queue.

#[cfg(test)]
mod tests;
pub mod worked;

use crate::refusal::Refusal;
use std::collections::VecDeque;

/// The most messages that a session holds.
const HELD_LIMIT: usize = 64;

/// A sent message, with the caller's handle.
#[derive(Clone, Copy, Debug, PartialEq, Eq)]
pub struct Message {
    pub number: u64,
    pub handle: u64,
}

#[derive(Clone, Debug, PartialEq, Eq)]
pub struct Session {
    last: u64,
    held: VecDeque<Message>,
}

impl Session {
    /// A session that holds nothing and whose last number was `last`; a fresh
    /// one has given none, so its last is 0.
    pub fn after(last: u64) -> Self {
        Self {
            last,
            held: VecDeque::new(),
        }
    }

    /// The messages held, oldest first.
    pub fn held(&self) -> Vec<Message> {
        self.held.iter().copied().collect()
    }

    /// A message is sent and gets the next number.
    pub fn accept(&mut self, handle: u64) -> Result<u64, Refusal> {
        let number = self
            .last
            .checked_add(1)
            .ok_or_else(Refusal::numbers_spent)?;
        if self.held.len() == HELD_LIMIT {
            return Err(Refusal::table_full());
        }
        self.held.push_back(Message { number, handle });
        self.last = number;
        Ok(number)
    }

    /// The peer has all messages up to `number`.
    pub fn ack(&mut self, number: u64) -> Result<(), Refusal> {
        if number > self.last {
            return Err(Refusal::ack_ahead());
        }
        self.held.retain(|message| message.number > number);
        Ok(())
    }

    /// The peer has all messages up to `msg_seq`; hands back what to send again.
    pub fn reconnect(&mut self, msg_seq: u64) -> Result<Vec<Message>, Refusal> {
        self.ack(msg_seq)?;
        Ok(self.held())
    }

    /// Only a full reset drops what is held.
    pub fn reset(&mut self, full: bool) {
        if full {
            self.held.clear();
        }
    }
}
