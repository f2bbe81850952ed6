//! The fixed files of sealed frames and of streams that go over to them.

pub mod bad;
pub mod builds;
pub mod case;
pub mod cuts;
pub mod faults;
pub mod frames;
pub mod lengths;
pub mod links;
pub mod moments;
pub mod nonces;
pub mod orders;
pub mod shown;
pub mod stores;
