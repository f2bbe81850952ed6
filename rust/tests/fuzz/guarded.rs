//! Buffers and structs whose surroundings must stay as they are.

use second::random::Random;
use std::ops::Range;

/// Bytes in front, at least; up to fifteen more make the start fall anywhere.
const FRONT: u32 = 32;
const BEHIND: u32 = 32;

/// A buffer that stands inside a larger one of random bytes.
pub struct Guarded {
    all: Vec<u8>,
    place: Range<usize>,
    front: Vec<u8>,
    behind: Vec<u8>,
}

/// Random bytes, eight at a time, since every call needs some.
pub fn noise(random: &mut Random, length: u32) -> Vec<u8> {
    let words = std::iter::repeat_with(|| random.u64().to_le_bytes());
    words.flatten().take(length as usize).collect()
}

impl Guarded {
    pub fn new(random: &mut Random, content: &[u8]) -> Self {
        let length = FRONT + random.between(0, 15);
        let front = noise(random, length);
        let behind = noise(random, BEHIND);
        let place = front.len()..front.len() + content.len();
        Self {
            all: [&front, content, &behind].concat(),
            place,
            front,
            behind,
        }
    }

    pub fn content(&self) -> &[u8] {
        &self.all[self.place.clone()]
    }

    pub fn lend(&mut self) -> &mut [u8] {
        &mut self.all[self.place.clone()]
    }

    /// Holds the buffer to the bytes it must have now, and what stands around
    /// it to those it always had.
    pub fn expect(&self, content: &[u8], what: &str) {
        // To the compiler a lent `&[u8]` cannot have changed; here it might.
        let all = std::hint::black_box(&self.all);
        let (front, behind) = (&all[..self.place.start], &all[self.place.end..]);
        assert!(front == self.front, "{what}: bytes in front changed");
        assert!(behind == self.behind, "{what}: bytes behind changed");
        assert!(self.content() == content, "{what}: other bytes than due");
    }
}

/// A struct of 64-bit numbers between others.
#[repr(C)]
pub struct Framed<T> {
    front: [u64; 4],
    pub it: T,
    behind: [u64; 4],
}

const AROUND: [u64; 4] = [0xA5A5_0123_4567_89AB; 4];

impl<T> Framed<T> {
    pub fn new(it: T) -> Self {
        Self {
            front: AROUND,
            it,
            behind: AROUND,
        }
    }

    /// What it is now; the numbers around it must be as they were.
    pub fn taken_out(self) -> T {
        let framed = std::hint::black_box(self);
        assert!(
            framed.front == AROUND && framed.behind == AROUND,
            "numbers around a struct changed"
        );
        framed.it
    }
}
