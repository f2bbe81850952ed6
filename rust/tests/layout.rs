//! The crate's structs against those of the C header: a C program prints their
//! sizes, alignments and offsets, and so does this test.

use mahuixen::sys::{
    CrcState, RawAnswer, RawBody, RawHeader, RawList, RawRefusal, RawReport, RawSegment,
};
use mahuixen::sys::{RawSending, RawSession, RawSpan, RawVerdict, SealedState};
use mahuixen::{Features, Message, State};
use std::mem::{align_of, offset_of, size_of};
use std::path::Path;
use std::process::{Command, Output};

fn size_of_field<S, F>(_: impl FnOnce(&S) -> &F) -> usize {
    size_of::<F>()
}

/// A line for each struct, `NAME SIZE ALIGN`, and behind it one for each of
/// its fields, `NAME.FIELD OFFSET SIZE`.
macro_rules! layouts {
    ($($name:ident = $struct:ident { $($field:ident)* })*) => {
        vec![$(
            format!(
                "{} {} {}",
                stringify!($name),
                size_of::<$struct>(),
                align_of::<$struct>(),
            ),
            $(format!(
                "{}.{} {} {}",
                stringify!($name),
                stringify!($field),
                offset_of!($struct, $field),
                size_of_field(|it: &$struct| &it.$field),
            ),)*
        )*]
    };
}

fn of_the_crate() -> Vec<String> {
    layouts! {
        features = Features { supported required }
        segment = RawSegment { len align }
        header = RawHeader { tag count segments }
        refusal = RawRefusal { number first second third }
        crc = CrcState { stage revision first payload header refusal got own peer block }
        sealed = SealedState { stage exhausted header refusal got opened first key nonce }
        state = State { mode ready crc sealed }
        report = RawReport { kind taken revision peer header refusal }
        sending = RawSending { exhausted refused spent key nonce }
        session = RawSession { released last handles }
        answer = RawAnswer { kind number refusal }
        message = Message { number handle }
        verdict = RawVerdict { auth signature features reconnect }
        list = RawList { at count }
        span = RawSpan { at len }
        body = RawBody { kind numbers first second bytes refusal }
    }
}

/// What a command prints; it must not fail.
fn printed(command: &mut Command) -> String {
    let Output {
        status,
        stdout,
        stderr,
    } = command.output().expect("a command to run");
    let said = String::from_utf8_lossy(&stderr);
    assert!(status.success(), "{command:?}: {status}\n{said}");
    String::from_utf8(stdout).expect("plain text")
}

fn of_the_header() -> Vec<String> {
    let root = Path::new(env!("CARGO_MANIFEST_DIR")).join("..");
    let program = Path::new(env!("CARGO_TARGET_TMPDIR")).join("layout");
    printed(
        Command::new("gcc")
            .args(["-Wall", "-Wextra", "-Wpedantic", "-Werror", "-I"])
            .arg(root.join("include"))
            .arg(root.join("c/layout.c"))
            .arg("-o")
            .arg(&program),
    );
    let lines = printed(&mut Command::new(&program));
    lines.lines().map(String::from).collect()
}

#[test]
fn the_structs_are_those_of_the_header() {
    assert_eq!(of_the_header(), of_the_crate());
}
