//! Lines of receiver records. The store's checksums are published ones: 32
//! bytes that count up from 0, 32 zeros, nine digits, and no bytes at all.

use super::tests::printed;
use crate::vectors::{banner, empty, single_of_msgr21, three_aborted, three_whole};
use crate::wire::Revision;

/// A record of our own features 1 and 0, a store that counts up from 0, and
/// these calls.
fn record(own: [u8; 2], store_length: u8, pieces: &[u32], stream: &[u8]) -> Vec<u8> {
    let mut bytes = vec![b'R'];
    bytes.extend(u64::from(own[0]).to_le_bytes());
    bytes.extend(u64::from(own[1]).to_le_bytes());
    bytes.extend([store_length, 0, 0, 0, 0]);
    bytes.extend([pieces.len() as u8, 0]);
    bytes.extend(pieces.iter().flat_map(|piece| piece.to_le_bytes()));
    bytes.extend((stream.len() as u32).to_le_bytes());
    bytes.extend(stream);
    bytes
}

fn lines(own: [u8; 2], store_length: u8, pieces: &[u32], stream: &[u8]) -> Vec<String> {
    let text = printed(&record(own, store_length, pieces, stream));
    text.lines().map(String::from).collect()
}

#[test]
fn banner_and_empty_frame() {
    let stream = [banner(Revision::Msgr21), empty(Revision::Msgr21)].concat();
    let expected = [
        "start ok",
        "more taken 0 crc b92286b1",
        "more taken 7 crc b92286b1",
        "banner taken 19 supported 1 required 0 revision 1 crc b92286b1",
        "more taken 31 crc b92286b1",
        "frame taken 1 tag 16 segments 1 lengths 0 0 0 0 alignments 0 0 0 0 crc b92286b1",
        "more taken 0 crc b92286b1",
    ];
    assert_eq!(
        lines([1, 0], 32, &[0, 7, 99, 31, 99, 99], &stream),
        expected
    );
}

#[test]
fn a_frame_fills_the_store() {
    let stream = [banner(Revision::Msgr21), single_of_msgr21()].concat();
    let frame = "tag 20 segments 1 lengths 9 0 0 0 alignments 0 0 0 0";
    let printed = lines([1, 1], 9, &[65_536, 65_536], &stream);
    assert_eq!(printed[2], format!("frame taken 45 {frame} crc 1cf96d7c"));
}

#[test]
fn both_revisions_of_the_same_length() {
    let fields = "tag 17 segments 3 lengths 9 0 32 0 alignments 8 0 4098 0";
    for (revision, number) in [(Revision::Msgr20, 0), (Revision::Msgr21, 1)] {
        let stream = [
            banner(revision),
            three_aborted(revision),
            three_whole(revision),
        ];
        let printed = lines([1, 0], 41, &[200; 5], &stream.concat());
        assert!(printed[1].contains(&format!("supported {number} required 0 revision {number}")));
        let expected: &[&str] = match revision {
            Revision::Msgr20 => &["dropped taken 90", "frame taken 90", "more taken 0"],
            Revision::Msgr21 => &[
                "first taken 45",
                "dropped taken 45",
                "first taken 45",
                "frame taken 45",
            ],
        };
        for (line, begun) in printed[2..].iter().zip(expected) {
            let fields = if begun.starts_with("more") {
                "crc "
            } else {
                fields
            };
            assert!(line.starts_with(&format!("{begun} {fields}")), "{line}");
        }
    }
}

#[test]
fn an_early_report_has_the_frames_fields() {
    let stream = [banner(Revision::Msgr21), three_whole(Revision::Msgr21)].concat();
    let fields = "tag 17 segments 3 lengths 9 0 32 0 alignments 8 0 4098 0";
    let printed = lines([1, 0], 41, &[26, 44, 1, 0, 99], &stream);
    assert!(printed[2].starts_with("more taken 44 crc "));
    assert!(printed[3].starts_with(&format!("first taken 1 {fields} crc ")));
    assert!(printed[4].starts_with("more taken 0 crc "));
    assert!(printed[5].starts_with(&format!("frame taken 45 {fields} crc ")));
}

#[test]
fn our_side_without_the_bit_reads_msgr20() {
    let stream = [banner(Revision::Msgr21), empty(Revision::Msgr20)].concat();
    let expected = [
        "start ok",
        "banner taken 26 supported 1 required 0 revision 0 crc ffffffff",
        "frame taken 49 tag 16 segments 1 lengths 0 0 0 0 alignments 0 0 0 0 crc ffffffff",
    ];
    assert_eq!(lines([0, 0], 0, &[75, 75], &stream), expected);
}

#[test]
fn missing_features() {
    let mut stream = banner(Revision::Msgr21);
    stream[18] = 0x14;
    let expected = [
        "start ok",
        "more taken 23 crc ffffffff",
        "refused taken 3 number 3 detail 20 2 2 crc ffffffff",
        "refused taken 0 number 3 detail 20 2 2 crc ffffffff",
    ];
    assert_eq!(lines([1, 0], 0, &[23, 9, 0], &stream), expected);
    let stream = banner(Revision::Msgr20);
    let expected = [
        "start ok",
        "refused taken 26 number 4 detail 1 0 1 crc ffffffff",
    ];
    assert_eq!(lines([1, 1], 0, &[26], &stream), expected);
}

#[test]
fn a_short_store() {
    let stream = [banner(Revision::Msgr21), three_whole(Revision::Msgr21)].concat();
    let expected = [
        "start ok",
        "banner taken 26 supported 1 required 0 revision 1 crc b92286b1",
        "refused taken 32 number 10 detail 41 0 0 crc b92286b1",
        "refused taken 0 number 10 detail 41 0 0 crc b92286b1",
    ];
    assert_eq!(lines([1, 0], 32, &[99, 99, 99], &stream), expected);
}

#[test]
fn a_refused_start_is_repeated() {
    let stream = banner(Revision::Msgr21);
    let expected = [
        "start refused 16 detail 0 0 0",
        "refused taken 0 number 16 detail 0 0 0 crc b92286b1",
        "refused taken 0 number 16 detail 0 0 0 crc b92286b1",
    ];
    assert_eq!(lines([0, 1], 32, &[0, 26], &stream), expected);
    assert_eq!(lines([2, 0], 32, &[0, 26], &stream), expected);
}

#[test]
fn a_bad_record_prints_none_of_its_lines() {
    let good = record([1, 0], 0, &[3], b"cep");
    let cut = &good[..good.len() - 1];
    let bytes = [good.as_slice(), cut].concat();
    let expected = "start ok\nmore taken 3 crc ffffffff\nbad record\n";
    assert_eq!(printed(&bytes), expected);
}
