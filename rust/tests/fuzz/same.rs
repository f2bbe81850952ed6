//! The second program's values as the library has them.

use mahuixen::sys::{Built, RawRefusal, RawReport};
use mahuixen::{Features, Header, Refusal, Report, Revision, Segment};
use second::frame::Frame;

pub fn features(features: second::banner::Features) -> Features {
    Features::new(features.supported, features.required)
}

pub fn revision(revision: second::wire::Revision) -> Revision {
    match revision {
        second::wire::Revision::Msgr20 => Revision::Msgr20,
        second::wire::Revision::Msgr21 => Revision::Msgr21,
    }
}

pub fn header(frame: &Frame) -> Header {
    let segments = frame.segments.map(|s| Segment::new(s.length, s.alignment));
    Header {
        tag: frame.tag,
        count: frame.count,
        segments,
    }
}

pub fn numbers(refusal: second::refusal::Refusal) -> RawRefusal {
    let [first, second, third] = refusal.detail;
    RawRefusal {
        number: refusal.number.into(),
        first,
        second,
        third,
    }
}

/// The report in numbers, with the bytes taken and 0 in fields that its kind does
/// not use.
pub fn raw(taken: usize, report: &second::report::Report) -> RawReport {
    use second::report::Report;
    let none = RawReport {
        taken: taken as u64,
        ..RawReport::default()
    };
    match report {
        Report::More => none,
        Report::Banner { peer, revision } => RawReport {
            kind: 1,
            revision: u64::from(*revision == second::wire::Revision::Msgr21),
            peer: features(*peer),
            ..none
        },
        Report::Frame(frame) => RawReport {
            kind: 2,
            header: header(frame).into(),
            ..none
        },
        Report::Dropped(frame) => RawReport {
            kind: 3,
            header: header(frame).into(),
            ..none
        },
        Report::Refused(refusal) => RawReport {
            kind: 4,
            refusal: numbers(*refusal),
            ..none
        },
        Report::First(frame) => RawReport {
            kind: 5,
            header: header(frame).into(),
            ..none
        },
    }
}

/// Whether the two reports say the same.
pub fn tells(report: &Report, expected: &second::report::Report) -> bool {
    use second::report::Report as Second;
    match (report, expected) {
        (Report::More, Second::More) => true,
        (
            Report::Banner { peer, revision },
            Second::Banner {
                peer: p,
                revision: r,
            },
        ) => (*peer, *revision) == (features(*p), self::revision(*r)),
        (Report::First(header), Second::First(frame))
        | (Report::Frame(header), Second::Frame(frame))
        | (Report::Dropped(header), Second::Dropped(frame)) => *header == self::header(frame),
        (Report::Refused(refusal), Second::Refused(expected)) => {
            (refusal.number(), refusal.details()) == (expected.number, expected.detail)
        }
        _ => false,
    }
}

/// The kinds that [`kind`] tells apart on a crc link.
pub const KINDS: [&str; 20] = [
    "more",
    "banner msgr2.0",
    "banner msgr2.1",
    "frame",
    "dropped",
    "segment 1 early",
    REFUSED[1],
    REFUSED[2],
    REFUSED[3],
    REFUSED[4],
    REFUSED[5],
    REFUSED[6],
    REFUSED[7],
    REFUSED[8],
    REFUSED[9],
    REFUSED[10],
    REFUSED[11],
    REFUSED[12],
    REFUSED[16],
    REFUSED[24],
];

/// Each refusal at its number.
pub const REFUSED: [&str; 28] = [
    "not refused",
    "refused 1",
    "refused 2",
    "refused 3",
    "refused 4",
    "refused 5",
    "refused 6",
    "refused 7",
    "refused 8",
    "refused 9",
    "refused 10",
    "refused 11",
    "refused 12",
    "refused 13",
    "refused 14",
    "refused 15",
    "refused 16",
    "refused 17",
    "refused 18",
    "refused 19",
    "refused 20",
    "refused 21",
    "refused 22",
    "refused 23",
    "refused 24",
    "refused 25",
    "refused 26",
    "refused 27",
];

pub fn kind(report: &RawReport) -> &'static str {
    match report.kind {
        0 => KINDS[0],
        1 => KINDS[1 + report.revision as usize],
        2 | 3 => KINDS[1 + report.kind as usize],
        5 => KINDS[5],
        _ => REFUSED[report.refusal.number as usize],
    }
}

/// The crate's answer of a call that writes, in bare numbers.
pub fn bare(built: Result<usize, Refusal>) -> Built {
    match built {
        Ok(written) => (written as u64, RawRefusal::default()),
        Err(refusal) => {
            let [first, second, third] = refusal.details();
            let number = refusal.number().into();
            let refusal = RawRefusal {
                number,
                first,
                second,
                third,
            };
            (0, refusal)
        }
    }
}

/// The second program's answer of such a call.
pub fn built(answer: Result<u64, second::refusal::Refusal>) -> Built {
    match answer {
        Ok(written) => (written, RawRefusal::default()),
        Err(refusal) => (0, numbers(refusal)),
    }
}

/// 26, which has no details.
pub const CONTRADICTS: RawRefusal = RawRefusal {
    number: 26,
    first: 0,
    second: 0,
    third: 0,
};
