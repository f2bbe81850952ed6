//! The fixed files of receiver records.

pub mod bad;
pub mod bench;
pub mod boundaries;
pub mod case;
pub mod cuts;
pub mod first;
pub mod spelling;
