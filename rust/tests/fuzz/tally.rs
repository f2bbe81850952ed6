//! How often each kind of answer came up.

use std::collections::BTreeMap;

#[derive(Default)]
pub struct Tally {
    seen: BTreeMap<&'static str, u64>,
}

/// So many cases in which every kind must come up at least once.
const ENOUGH: u64 = 5_000;

impl Tally {
    pub fn count(&mut self, kind: &'static str) {
        *self.seen.entry(kind).or_default() += 1;
    }

    /// Prints the numbers. A kind that never came up was never compared.
    pub fn expect(&self, what: &str, cases: u64, kinds: &[&str]) {
        let all: u64 = self.seen.values().sum();
        println!("{what}: {all} from {cases} cases");
        for (kind, seen) in &self.seen {
            println!("  {seen:>9} {kind}");
            assert!(kinds.contains(kind), "{kind}: not a kind of {what}");
        }
        for kind in kinds.iter().filter(|_| cases >= ENOUGH) {
            assert!(self.seen.contains_key(kind), "{kind}: never came up");
        }
    }
}
