//! Case files that go wrong: each prints its good records' lines, then
//! `bad record`, and nothing for what follows.

use crate::banner::{Features, BANNER_LENGTH};
use crate::fixed::published::checksum_of;
use crate::fixed::request::between_others;
use crate::fixed::CaseFile;
use crate::input::LARGEST_LENGTH;
use crate::records::{BannerRecord, Record, SendBuffer};
use crate::wire::Revision;

fn checksum_record() -> Record {
    checksum_of(u32::MAX, b"123456789")
}

fn banner_record() -> Record {
    let features = Features {
        supported: 1,
        required: 0,
    };
    let buffer = SendBuffer::around(BANNER_LENGTH, 0, 0, 0);
    Record::Banner(BannerRecord { features, buffer })
}

fn frame_record() -> Record {
    Record::Frame(between_others(Revision::Msgr21, &[5, 3]))
}

impl CaseFile {
    /// Good records, then the bad bytes, then whatever the file still holds.
    pub fn spoilt(good: &[Record], bad: &[u8], after: &[Record]) -> Self {
        let mut file = Self::of(good);
        file.bytes.extend(bad);
        file.bytes.extend(Self::of(after).bytes);
        file.lines += 1;
        file
    }

    /// The record cut off after `kept` bytes, where the input ends.
    pub fn cut(record: &Record, kept: usize) -> Self {
        Self::spoilt(&[checksum_record()], &record.to_bytes()[..kept], &[])
    }

    /// The record with other bytes at `place`; a good record follows.
    fn patched(record: &Record, place: usize, bytes: &[u8]) -> Self {
        let mut bad = record.to_bytes();
        bad[place..place + bytes.len()].copy_from_slice(bytes);
        let good = [banner_record(), frame_record()];
        Self::spoilt(&good, &bad, &[checksum_record()])
    }
}

fn kinds() -> Vec<CaseFile> {
    let good = [checksum_record(), banner_record(), frame_record()];
    let mut files = vec![
        CaseFile::spoilt(&good, b"X", &good),
        CaseFile::spoilt(&[], &[0], &good),
        CaseFile::spoilt(&good, b"\n", &[]),
    ];
    for (record, kind) in good.iter().zip([b"c", b"b", b"f"]) {
        files.push(CaseFile::patched(record, 0, kind));
    }
    files
}

/// Ends of input inside each field or right before it.
fn cuts() -> Vec<CaseFile> {
    let (checksum, banner, frame) = (checksum_record(), banner_record(), frame_record());
    let cut = |record, places: &[usize]| -> Vec<CaseFile> {
        places
            .iter()
            .map(|&kept| CaseFile::cut(record, kept))
            .collect()
    };
    let mut files = cut(&checksum, &[1, 4, 5, 8, 9, 17]);
    files.extend(cut(&banner, &[1, 8, 9, 16, 17, 20, 21, 22, 29]));
    files.extend(cut(&frame, &[1, 2, 3, 4, 9, 27, 28, 29, 33, 34, 41]));
    files.extend(cut(&frame, &[42, 45, 46, 53]));
    files
}

/// One above the largest length, with the bytes it asks for behind it.
fn over_long() -> Vec<CaseFile> {
    let above = (LARGEST_LENGTH + 1).to_le_bytes();
    let bytes = vec![0x11; LARGEST_LENGTH as usize + 1];
    let mut source = frame_record().to_bytes();
    source.truncate(42);
    source.extend(above);
    source.extend(&bytes);
    let good = [frame_record()];
    vec![
        CaseFile::spoilt(&good, &checksum_of(0, &bytes).to_bytes(), &good),
        CaseFile::spoilt(&good, &source, &good),
        CaseFile::patched(&banner_record(), 17, &above),
        CaseFile::patched(&frame_record(), 29, &above),
        CaseFile::patched(&checksum_record(), 5, &[0xFF; 4]),
        CaseFile::patched(&banner_record(), 17, &[0xFF; 4]),
        CaseFile::patched(&frame_record(), 29, &[0xFF; 4]),
        CaseFile::patched(&frame_record(), 42, &[0xFF; 4]),
    ]
}

/// Revision and abort bytes other than 0 and 1.
fn choices() -> Vec<CaseFile> {
    let patched = |(place, byte)| CaseFile::patched(&frame_record(), place, &[byte]);
    let all = [(1, 2), (1, 255), (28, 2), (28, 255)];
    all.into_iter().map(patched).collect()
}

pub fn files() -> Vec<CaseFile> {
    let mut files = kinds();
    files.extend(cuts());
    files.extend(over_long());
    files.extend(choices());
    files
}
