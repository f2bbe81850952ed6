//! The independent second program: it runs msgr2 case records by its own
//! reading of the rules, and makes the case files both programs are given.
//! As a library it lends its receiver, its builder and its generators to the
//! tests of the proved one, with which it shares no code.

#![forbid(unsafe_code)]

pub mod banner;
pub mod body;
pub mod builder;
pub mod checksum;
pub mod command;
pub mod cutting;
pub mod definition;
pub mod epilogue;
pub mod fixed;
pub mod frame;
pub mod gcm;
pub mod generate;
pub mod handshake;
pub mod input;
pub mod link;
pub mod random;
pub mod receiver;
pub mod recordings;
pub mod records;
pub mod refusal;
pub mod report;
pub mod run;
pub mod secure;
pub mod session;
pub mod spoil;
#[cfg(test)]
mod vectors;
pub mod wire;
