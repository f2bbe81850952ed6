//! The field at which a link is refused, and the bytes around it.

use crate::layout::{self, number, preamble_field, Frame};
use crate::walk::{Unfinished, AROUND};
use mahuixen::{checksum, Refusal, PREAMBLE_START, SEGMENT_START};
use std::ops::Range;

/// Bytes in a line of a dump.
const ROW: usize = 16;

/// A field of the part that is refused.
#[derive(Clone, Debug, PartialEq, Eq)]
pub struct Fault {
    /// Where it stands in the part.
    pub field: Range<usize>,
    /// What it is, and what it holds.
    pub words: String,
}

impl Fault {
    /// The field that a refusal is about, by the refusal's number and detail.
    pub fn find(refusal: &Refusal, unfinished: &Unfinished) -> Option<Self> {
        let detail = refusal.details()[0];
        let place = usize::try_from(detail).ok()?;
        match refusal.number() {
            1 => Some(Self::new(0..8, "its first eight bytes")),
            2 => {
                let words = format!("the payload length is {detail}");
                Some(Self::new(layout::PAYLOAD_LENGTH, words))
            }
            3 => Some(Self::features("required", layout::REQUIRED, unfinished)),
            4 => Some(Self::features("supported", layout::SUPPORTED, unfinished)),
            5 => Some(Self::preamble_checksum(unfinished)),
            6 | 7 => Some(Self::preamble(place, unfinished)),
            8 => Some(Self::preamble(0, unfinished)),
            9 => Some(Self::limit(place, unfinished)),
            10 => {
                let store = unfinished.store;
                let words = format!("the lengths add up to {detail}, and the store has {store}");
                Some(Self::new(layout::SEGMENTS, words))
            }
            11 => Self::segment_checksum(place, unfinished),
            12 => Self::late("late status", unfinished),
            24 if place == 0 => Self::late("late flags byte", unfinished),
            24 => Self::unused_checksum(place, unfinished),
            _ => None,
        }
    }

    fn new(field: Range<usize>, words: impl Into<String>) -> Self {
        let words = words.into();
        Self { field, words }
    }

    fn features(which: &str, field: Range<usize>, unfinished: &Unfinished) -> Self {
        let bits = number(unfinished.bytes, field.clone());
        Self::new(field, format!("the {which} features are {bits:#x}"))
    }

    fn preamble(place: usize, unfinished: &Unfinished) -> Self {
        let (name, field) = preamble_field(place);
        let value = number(unfinished.bytes, field.clone());
        Self::new(field, format!("{name} is {value}"))
    }

    /// A length above its limit, or one with which the sum of them is.
    fn limit(place: usize, unfinished: &Unfinished) -> Self {
        let fault = Self::preamble(place, unfinished);
        let fields = layout::SEGMENTS.step_by(6).map(|first| first..first + 4);
        let sum: u64 = fields.map(|field| number(unfinished.bytes, field)).sum();
        let words = format!("{}, and all lengths add up to {sum}", fault.words);
        Self { words, ..fault }
    }

    fn preamble_checksum(unfinished: &Unfinished) -> Self {
        let field = layout::PREAMBLE_CHECKSUM;
        let due = checksum(PREAMBLE_START, unfinished.bytes.get(..28).unwrap_or(&[]));
        let words = differing(
            "the preamble's checksum",
            unfinished,
            &field,
            "its bytes",
            due,
        );
        Self::new(field, words)
    }

    fn segment_checksum(segment: usize, unfinished: &Unfinished) -> Option<Self> {
        let frame = frame(segment, unfinished)?;
        let field = frame.checksum(segment);
        let due = checksum(SEGMENT_START, unfinished.bytes.get(frame.segment(segment))?);
        let name = format!("segment {segment}'s checksum");
        let bytes = format!("its {} bytes", frame.segment(segment).len());
        let words = differing(&name, unfinished, &field, &bytes, due);
        Some(Self::new(field, words))
    }

    fn unused_checksum(segment: usize, unfinished: &Unfinished) -> Option<Self> {
        let field = frame(segment, unfinished)?.checksum(segment);
        let value = number(unfinished.bytes, field.clone());
        let words =
            format!("the checksum of segment {segment}, which is not used, is {value:#010x}");
        Some(Self::new(field, words))
    }

    fn late(name: &str, unfinished: &Unfinished) -> Option<Self> {
        let place = frame(1, unfinished)?.late();
        let byte = unfinished.bytes.get(place)?;
        Some(Self::new(
            place..place + 1,
            format!("the {name} is {byte:#04x}"),
        ))
    }

    /// The lines that show it: its place and value, and the bytes around it.
    pub fn lines(&self, unfinished: &Unfinished) -> Vec<String> {
        let Range { start, end } = self.field;
        let (first, last) = (
            unfinished.first + start as u64,
            unfinished.first + end as u64 - 1,
        );
        let place = match last - first {
            0 => format!("byte {first}"),
            _ => format!("bytes {first} to {last}"),
        };
        let began = unfinished.first;
        let mut lines = vec![format!(
            "at {place}: {}; the part began at byte {began}",
            self.words
        )];
        lines.extend(dump(unfinished, &self.field));
        lines
    }
}

/// The frame that is refused, where it has a segment of this number.
fn frame(segment: usize, unfinished: &Unfinished) -> Option<Frame> {
    (1..=4).contains(&segment).then_some(())?;
    Frame::read(unfinished.revision?, unfinished.bytes)
}

fn differing(
    name: &str,
    unfinished: &Unfinished,
    field: &Range<usize>,
    bytes: &str,
    due: u32,
) -> String {
    let value = number(unfinished.bytes, field.clone());
    format!("{name} is {value:#010x}, and {bytes} give {due:#010x}")
}

/// The bytes around a field of the part, in rows that begin with the part, the
/// field in brackets.
fn dump(unfinished: &Unfinished, field: &Range<usize>) -> Vec<String> {
    let bytes = [unfinished.before, unfinished.bytes, unfinished.behind].concat();
    // Places in these bytes; the first row may be short.
    let part = unfinished.before.len();
    let marked = part + field.start..part + field.end;
    let shown = marked.start.saturating_sub(AROUND)..(marked.end + AROUND).min(bytes.len());
    let short = part % ROW;
    let mut starts: Vec<usize> = (short..bytes.len()).step_by(ROW).collect();
    if short > 0 {
        starts.insert(0, 0);
    }
    let mut lines = Vec::new();
    for start in starts {
        let end = if start < short {
            short
        } else {
            (start + ROW).min(bytes.len())
        };
        if start < shown.end && end > shown.start {
            let number = unfinished.first + start as u64 - part as u64;
            lines.push(row(number, &bytes, start..end, &marked));
        }
    }
    lines
}

/// One row: the number of its first byte, its bytes, and those of them that
/// are text.
fn row(number: u64, bytes: &[u8], places: Range<usize>, marked: &Range<usize>) -> String {
    let mut line = format!("{number:>12} ");
    for place in places.clone() {
        line.push(match place {
            _ if place == marked.start => '[',
            _ if place == marked.end && place > places.start => ']',
            _ => ' ',
        });
        line += &format!("{:02x}", bytes[place]);
    }
    line.push(if places.end == marked.end { ']' } else { ' ' });
    let width = 13 + 3 * ROW + 1;
    let text = |byte: &u8| match byte {
        0x20..=0x7e => char::from(*byte),
        _ => '.',
    };
    let text: String = bytes[places].iter().map(text).collect();
    format!("{line:width$} {text}")
}

#[cfg(test)]
mod tests {
    use super::*;
    use mahuixen::{Numbers, Revision};

    fn unfinished<'a>(bytes: &'a [u8], before: &'a [u8], behind: &'a [u8]) -> Unfinished<'a> {
        Unfinished {
            first: 27,
            bytes,
            before,
            behind,
            revision: Some(Revision::Msgr20),
            store: 9,
        }
    }

    fn refusal(number: u8, first: u64) -> Refusal {
        Refusal::from(Numbers {
            number,
            first,
            second: 0,
            third: 0,
        })
    }

    /// A msgr2.0 frame of two segments, 2 and 3 bytes.
    fn frame() -> Vec<u8> {
        let mut frame = vec![0; 32 + 5 + 17];
        frame[..3].copy_from_slice(&[17, 2, 2]);
        frame[8] = 3;
        frame[37..].copy_from_slice(&[
            7, 0xA1, 0xA2, 0xA3, 0xA4, 0xB1, 0xB2, 0xB3, 0xB4, 0xC1, 0, 0, 0, 0, 0, 0, 0xD4,
        ]);
        frame
    }

    fn found(number: u8, detail: u64) -> (Range<usize>, String) {
        let frame = frame();
        let fault = Fault::find(&refusal(number, detail), &unfinished(&frame, &[], &[]));
        let Fault { field, words } = fault.expect("a field");
        (field, words)
    }

    #[test]
    fn the_field_of_each_number() {
        let says = |number, detail, field, words: &str| {
            assert_eq!(found(number, detail), (field, words.to_string()));
        };
        says(1, 0, 0..8, "its first eight bytes");
        says(2, 15, 8..10, "the payload length is 15");
        says(3, 0x14, 18..26, "the required features are 0x0");
        says(4, 1, 10..18, "the supported features are 0x0");
        let due = checksum(0, &frame()[..28]);
        let words =
            format!("the preamble's checksum is 0x00000000, and its bytes give {due:#010x}");
        says(5, 28, 28..32, &words);
        says(6, 1, 1..2, "the segment count is 2");
        says(6, 8, 8..12, "segment 2's length is 3");
        says(7, 26, 26..27, "the flags byte is 0");
        says(8, 17, 0..1, "the tag is 17");
        let words = "segment 2's length is 3, and all lengths add up to 5";
        says(9, 8, 8..12, words);
        let words = "the lengths add up to 5, and the store has 9";
        says(10, 5, 2..26, words);
        let due = checksum(SEGMENT_START, &[0; 3]);
        let words = format!("segment 2's checksum is 0xb4b3b2b1, and its 3 bytes give {due:#010x}");
        says(11, 2, 42..46, &words);
        says(12, 7, 37..38, "the late status is 0x07");
        says(24, 0, 37..38, "the late flags byte is 0x07");
        let words = "the checksum of segment 3, which is not used, is 0x000000c1";
        says(24, 3, 46..50, words);
    }

    #[test]
    fn numbers_and_details_without_a_field() {
        let frame = frame();
        let unfinished = unfinished(&frame[..40], &[], &[]);
        for (number, detail) in [
            (11, 5),
            (11, 0),
            (24, 9),
            (16, 0),
            (26, 0),
            (99, 1),
            (1, u64::MAX),
        ] {
            let fault = Fault::find(&refusal(number, detail), &unfinished);
            assert!(fault.is_none() || number == 1, "{number} {detail}");
        }
    }

    #[test]
    fn rows_around_a_field() {
        let part: Vec<u8> = (0..32).collect();
        let unfinished = unfinished(&part, b"0123456789abcdef", b"ABC");
        let fault = Fault::new(28..32, "words");
        let expected = [
            "at bytes 55 to 58: words; the part began at byte 27",
            "          27  00 01 02 03 04 05 06 07 08 09 0a 0b 0c 0d 0e 0f  ................",
            "          43  10 11 12 13 14 15 16 17 18 19 1a 1b[1c 1d 1e 1f] ................",
            "          59  41 42 43                                         ABC",
        ];
        assert_eq!(fault.lines(&unfinished), expected);
        let fault = Fault::new(0..1, "words");
        let expected = [
            "at byte 27: words; the part began at byte 27",
            "          11  30 31 32 33 34 35 36 37 38 39 61 62 63 64 65 66  0123456789abcdef",
            "          27 [00]01 02 03 04 05 06 07 08 09 0a 0b 0c 0d 0e 0f  ................",
            "          43  10 11 12 13 14 15 16 17 18 19 1a 1b 1c 1d 1e 1f  ................",
        ];
        assert_eq!(fault.lines(&unfinished), expected);
    }

    #[test]
    fn a_field_that_goes_over_a_row() {
        let part: Vec<u8> = (0..32).collect();
        let unfinished = unfinished(&part, b"xyz", &[]);
        let fault = Fault::new(14..18, "words");
        let lines = fault.lines(&unfinished);
        assert_eq!(lines.len(), 4);
        assert!(lines[1].starts_with("          24  78 79 7a "));
        assert!(lines[2].starts_with("          27  00 "));
        assert!(lines[2].contains(" 0d[0e 0f "));
        assert!(lines[3].starts_with("          43  10 11]12 "));
    }
}
