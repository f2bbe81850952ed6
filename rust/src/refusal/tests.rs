use super::*;
use std::string::ToString;

/// The numbers that there are, and how many details each has.
const DETAILS: [(u8, usize); 27] = [
    (1, 0),
    (2, 1),
    (3, 3),
    (4, 3),
    (5, 1),
    (6, 1),
    (7, 1),
    (8, 1),
    (9, 1),
    (10, 1),
    (11, 1),
    (12, 1),
    (13, 0),
    (14, 1),
    (15, 0),
    (16, 0),
    (17, 0),
    (18, 0),
    (19, 0),
    (20, 1),
    (21, 1),
    (22, 0),
    (23, 0),
    (24, 1),
    (25, 0),
    (26, 0),
    (27, 0),
];

fn numbers(number: u8, [first, second, third]: [u64; 3]) -> Numbers {
    Numbers {
        number,
        first,
        second,
        third,
    }
}

fn refusal(number: u8, details: [u64; 3]) -> Refusal {
    Refusal::from(numbers(number, details))
}

#[test]
fn every_number_comes_back_with_its_details() {
    let given = [701, 702, 703];
    for (number, count) in DETAILS {
        let refusal = refusal(number, given);
        let mut kept = given;
        kept[count..].fill(0);
        assert_eq!((refusal.number(), refusal.details()), (number, kept));
        assert!(!matches!(refusal, Refusal::Other { .. }), "{number}");
    }
}

#[test]
fn other_numbers_keep_all_details() {
    let known = DETAILS.map(|(number, _)| number);
    for number in (1..=u8::MAX).filter(|number| !known.contains(number)) {
        let other = refusal(number, [1, 2, 3]);
        assert_eq!((other.number(), other.details()), (number, [1, 2, 3]));
        assert!(other.to_string().contains(&number.to_string()));
    }
    assert_eq!(Refusal::given(RawRefusal::default()), None);
}

#[test]
fn every_number_has_words_of_its_own() {
    let words = DETAILS.map(|(number, _)| refusal(number, [701, 702, 703]).to_string());
    for (place, text) in words.iter().enumerate() {
        assert!(!words[..place].contains(text), "{text}");
    }
}

#[test]
fn the_words_name_the_details() {
    let said = |number, details, word: &str| {
        let text = refusal(number, details).to_string();
        assert!(text.contains(word), "{text}");
    };
    said(2, [15, 0, 0], "15");
    said(3, [0x14, 2, 2], "2 feature bits from bit 2 on (0x14)");
    said(4, [0x20, 5, 1], "feature bit 5");
    said(6, [20, 0, 0], "byte 20");
    said(7, [27, 0, 0], "byte 27");
    said(8, [21, 0, 0], "21");
    said(9, [14, 0, 0], "byte 14");
    said(9, [0, 0, 0], "text");
    said(10, [4_097, 0, 0], "4097 bytes");
    said(11, [3, 0, 0], "segment 3");
    said(12, [0x0F, 0, 0], "0x0f");
    said(14, [489, 0, 0], "489 bytes");
    said(20, [12, 0, 0], "byte 12");
    said(21, [9, 0, 0], "tag 9");
    said(24, [3, 0, 0], "segment 3, which is not used");
    said(24, [0, 0, 0], "late flags");
}
