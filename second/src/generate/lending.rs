//! Generated receiver records whose calls lend stores of different lengths.

use super::receiver;
use crate::input::LARGEST_LENGTH;
use crate::random::Random;
use crate::records::{LendingRecord, LentCall, ReceiverRecord};

pub fn records(seed: u64, count: u64) -> impl Iterator<Item = LendingRecord> {
    let mut random = Random::new(seed ^ 0x54);
    receiver::records(seed, count).map(move |record| lending(&mut random, record))
}

/// The calls of the record, now with a store each; where one was refused for
/// its store, later ones show what stays refused.
fn lending(random: &mut Random, record: ReceiverRecord) -> LendingRecord {
    let habit = random.between(1, 4);
    let needed = random.between(0, record.store.length);
    let calls = record.pieces.iter().map(|&piece| {
        let lent = match habit {
            // Always enough, said in different ways.
            1 => random.pick(&[LARGEST_LENGTH, record.store.length]),
            // Seldom too little.
            2 if random.once_in(12) => random.between(0, record.store.length),
            2 => record.store.length,
            // Around one length.
            3 => (needed + random.between(0, 2)).min(LARGEST_LENGTH),
            _ => random
                .between(0, record.store.length + 1)
                .min(LARGEST_LENGTH),
        };
        LentCall::receive(piece, lent)
    });
    LendingRecord {
        calls: calls.collect(),
        own: record.own,
        store: record.store,
        tries: Vec::new(),
        stream: record.stream,
    }
}

#[cfg(test)]
mod tests {
    use super::*;
    use crate::records::Record;
    use crate::run::run;

    fn answers(seed: u64, count: u64) -> String {
        let records = records(seed, count).map(Record::Lending);
        let bytes: Vec<u8> = records.flat_map(|record| record.to_bytes()).collect();
        let mut printed = Vec::new();
        run(&bytes, &mut printed).expect("writing to memory");
        String::from_utf8(printed).expect("plain text")
    }

    #[test]
    fn every_record_has_its_lines() {
        let records = records(3, 500).map(Record::Lending);
        let expected: usize = records.map(|record| record.lines()).sum();
        let text = answers(3, 500);
        assert_eq!(text.lines().count(), expected);
        assert!(!text.contains("bad record"));
    }

    #[test]
    fn short_stores_come_up_often() {
        let text = answers(1, 3_000);
        let count = |word: &str| text.lines().filter(|line| line.contains(word)).count();
        assert!(count("number 10 ") > 300);
        assert!(count("frame taken") > 300 && count("dropped taken") > 40);
    }
}
