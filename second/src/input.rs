//! Takes little-endian numbers and runs of bytes off the front of the input.

/// The input breaks the record format; nothing behind it can be read.
#[derive(Debug, PartialEq, Eq)]
pub struct BadRecord;

/// The largest length a record may give.
pub const LARGEST_LENGTH: u32 = 65_536;

/// The longest segment and the longest sum of a frame that our case files carry
/// whole. The frame limits lie far above what a record can hold: they show in
/// headers alone, by what is judged behind them.
pub const CARRIED_SEGMENT: u32 = 16_384;
pub const CARRIED_SUM: u32 = 32_768;

/// The longest stream a record may hold.
pub const LARGEST_STREAM: u32 = 131_072;

/// The most calls a record may ask for.
pub const MOST_CALLS: u16 = 4_096;

pub struct Input<'a> {
    left: &'a [u8],
}

impl<'a> Input<'a> {
    pub fn new(bytes: &'a [u8]) -> Self {
        Self { left: bytes }
    }

    pub fn has_ended(&self) -> bool {
        self.left.is_empty()
    }

    pub fn array<const N: usize>(&mut self) -> Result<[u8; N], BadRecord> {
        let (taken, left) = self.left.split_first_chunk().ok_or(BadRecord)?;
        self.left = left;
        Ok(*taken)
    }

    pub fn u8(&mut self) -> Result<u8, BadRecord> {
        self.array().map(u8::from_le_bytes)
    }

    pub fn u16(&mut self) -> Result<u16, BadRecord> {
        self.array().map(u16::from_le_bytes)
    }

    pub fn u32(&mut self) -> Result<u32, BadRecord> {
        self.array().map(u32::from_le_bytes)
    }

    pub fn u64(&mut self) -> Result<u64, BadRecord> {
        self.array().map(u64::from_le_bytes)
    }

    /// A byte that may only be 0 or 1.
    pub fn choice(&mut self) -> Result<bool, BadRecord> {
        match self.u8()? {
            0 => Ok(false),
            1 => Ok(true),
            _ => Err(BadRecord),
        }
    }

    fn length_up_to(&mut self, largest: u32) -> Result<u32, BadRecord> {
        match self.u32()? {
            length if length <= largest => Ok(length),
            _ => Err(BadRecord),
        }
    }

    fn run_up_to(&mut self, largest: u32) -> Result<Vec<u8>, BadRecord> {
        let length = self.length_up_to(largest)? as usize;
        let (taken, left) = self.left.split_at_checked(length).ok_or(BadRecord)?;
        self.left = left;
        Ok(taken.to_vec())
    }

    /// A length within the record limit.
    pub fn length(&mut self) -> Result<u32, BadRecord> {
        self.length_up_to(LARGEST_LENGTH)
    }

    /// A length and that many bytes.
    pub fn run(&mut self) -> Result<Vec<u8>, BadRecord> {
        self.run_up_to(LARGEST_LENGTH)
    }

    /// A stream's length and its bytes.
    pub fn stream(&mut self) -> Result<Vec<u8>, BadRecord> {
        self.run_up_to(LARGEST_STREAM)
    }

    /// A number of calls.
    pub fn calls(&mut self) -> Result<u16, BadRecord> {
        match self.u16()? {
            calls if calls <= MOST_CALLS => Ok(calls),
            _ => Err(BadRecord),
        }
    }

    /// A number of calls and the length of each one's piece.
    pub fn pieces(&mut self) -> Result<Vec<u32>, BadRecord> {
        let calls = self.calls()?;
        (0..calls).map(|_| self.length()).collect()
    }
}
