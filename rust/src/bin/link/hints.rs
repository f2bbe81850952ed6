//! What may be behind the end of a link that this receiver cannot read on.

use crate::walk::End;
use mahuixen::{tag, Revision};

/// The connection mode in an auth done frame that means encryption.
pub const SECURE: u64 = 2;

/// Tags that the receiver does not know, of the compression handshake.
const COMPRESSION_REQUEST: u64 = 21;
const COMPRESSION_DONE: u64 = 22;

/// What was seen on a link that a hint may come from.
#[derive(Clone, Debug, Default, PartialEq, Eq)]
pub struct Seen {
    pub revision: Option<Revision>,
    /// The tag of the last frame that was handed over.
    pub last_tag: Option<u8>,
    /// The connection mode in its last auth done, and that frame's number.
    pub mode: Option<(u64, u64)>,
}

/// The hints for a link, given the other direction of its connection where
/// that is known.
pub fn hints(seen: &Seen, end: &End, other: Option<&Seen>) -> Vec<String> {
    let mut hints = Vec::new();
    hints.extend(secure(seen, end, other));
    if let End::Refused(refusal, unfinished) = end {
        let detail = refusal.details()[0];
        hints.extend(match refusal.number() {
            1 => older(unfinished.bytes),
            5 | 11 | 12 | 24 if seen.last_tag.is_none() => another_revision(seen.revision),
            7 if detail == 26 => Some(
                "a flag is set, which compressed frames have; they are not read here".to_string(),
            ),
            8 => compression(detail),
            _ => None,
        });
    }
    hints
}

/// A link that may have gone over to secure mode.
fn secure(seen: &Seen, end: &End, other: Option<&Seen>) -> Option<String> {
    if let Some((SECURE, frame)) = seen.mode {
        return Some(format!(
            "frame {frame}, auth done, says connection mode 2, secure: what follows it is encrypted, and is not read here"
        ));
    }
    let End::Refused(refusal, _) = end else {
        return None;
    };
    let command = matches!(
        seen.last_tag,
        Some(tag::AUTH_REQUEST | tag::AUTH_REQUEST_MORE)
    );
    if refusal.number() != 5 || !command {
        return None;
    }
    match other.map(|other| other.mode) {
        Some(Some((SECURE, _))) => Some(
            "the other direction's auth done says connection mode 2, secure: what follows the last frame here is encrypted, and is not read here"
                .to_string(),
        ),
        Some(Some(_)) => None,
        _ => Some(
            "the last frame asks for authentication: where the other direction's auth done says connection mode 2, secure, what follows is encrypted, and is not read here"
                .to_string(),
        ),
    }
}

fn compression(tag: u64) -> Option<String> {
    let name = match tag {
        COMPRESSION_REQUEST => "request",
        COMPRESSION_DONE => "done",
        _ => return None,
    };
    Some(format!(
        "tag {tag} is a compression {name}: the two sides agree on compression, which is not read here"
    ))
}

/// A banner of the protocol before msgr2 is `ceph v0` and two digits.
fn older(bytes: &[u8]) -> Option<String> {
    let older = bytes.starts_with(b"ceph v0");
    older.then(|| "this is the banner of msgr1, which is not read here".to_string())
}

/// A link without a frame that can be read may be one of the other revision.
fn another_revision(revision: Option<Revision>) -> Option<String> {
    let (own, revision) = match revision? {
        Revision::Msgr21 => (0, Revision::Msgr20),
        Revision::Msgr20 => (1, Revision::Msgr21),
    };
    Some(format!(
        "no frame can be read: perhaps the link speaks {revision} by its receiver's banner, try --own={own}"
    ))
}

#[cfg(test)]
mod tests {
    use super::*;
    use crate::walk::Unfinished;
    use mahuixen::{Numbers, Refusal};

    fn refused(number: u8, first: u64, bytes: &[u8]) -> End<'_> {
        let refusal = Refusal::from(Numbers {
            number,
            first,
            second: 0,
            third: 0,
        });
        let unfinished = Unfinished {
            first: 1,
            bytes,
            before: &[],
            behind: &[],
            revision: None,
            store: 0,
        };
        End::Refused(refusal, unfinished)
    }

    /// A link of msgr2.1 whose last frame had this tag, and the mode in its
    /// frame 3.
    fn seen(last_tag: Option<u8>, mode: Option<u64>) -> Seen {
        let revision = Some(Revision::Msgr21);
        let mode = mode.map(|mode| (mode, 3));
        Seen {
            revision,
            last_tag,
            mode,
        }
    }

    fn only(hints: Vec<String>) -> String {
        assert_eq!(hints.len(), 1, "{hints:?}");
        hints[0].clone()
    }

    #[test]
    fn secure_mode_by_its_own_auth_done() {
        let seen = seen(Some(6), Some(2));
        let hint = only(hints(&seen, &End::Ok, None));
        assert!(hint.starts_with("frame 3, auth done, says connection mode 2"));
        let hint = only(hints(&seen, &refused(5, 28, &[]), None));
        assert!(hint.starts_with("frame 3, auth done"));
    }

    #[test]
    fn crc_mode_gives_no_hint() {
        let (done, end) = (seen(Some(6), Some(1)), refused(5, 28, &[]));
        assert!(hints(&done, &end, None).is_empty());
        assert!(hints(&seen(Some(2), None), &end, Some(&done)).is_empty());
        assert!(hints(&seen(Some(17), None), &end, None).is_empty());
        assert!(hints(&seen(Some(17), None), &End::Ok, None).is_empty());
    }

    #[test]
    fn secure_mode_by_the_other_direction() {
        let (command, end) = (seen(Some(5), None), refused(5, 28, &[]));
        let hint = only(hints(&command, &end, Some(&seen(None, Some(2)))));
        assert!(hint.starts_with("the other direction's auth done says connection mode 2"));
        let hint = only(hints(&command, &end, None));
        assert!(hint.starts_with("the last frame asks for authentication"));
        assert!(hints(&command, &refused(11, 1, &[]), None).is_empty());
    }

    #[test]
    fn compression_by_tags_and_flags() {
        let seen = seen(Some(9), None);
        let hint = only(hints(&seen, &refused(8, 21, &[]), None));
        assert!(hint.starts_with("tag 21 is a compression request"));
        let hint = only(hints(&seen, &refused(8, 22, &[]), None));
        assert!(hint.starts_with("tag 22 is a compression done"));
        assert!(hints(&seen, &refused(8, 23, &[]), None).is_empty());
        let hint = only(hints(&seen, &refused(7, 26, &[]), None));
        assert!(hint.starts_with("a flag is set"));
        assert!(hints(&seen, &refused(7, 27, &[]), None).is_empty());
    }

    #[test]
    fn other_protocols_and_revisions() {
        let hint = only(hints(&seen(None, None), &refused(1, 0, b"ceph v02"), None));
        assert!(hint.contains("msgr1"));
        assert!(hints(&seen(None, None), &refused(1, 0, b"SSH-2.0-"), None).is_empty());
        let hint = only(hints(&seen(None, None), &refused(11, 1, &[]), None));
        assert!(hint.contains("msgr2.0") && hint.ends_with("try --own=0"));
        let old = Seen {
            revision: Some(Revision::Msgr20),
            ..seen(None, None)
        };
        for (number, detail) in [(5, 28), (24, 2), (24, 0)] {
            let hint = only(hints(&old, &refused(number, detail, &[]), None));
            assert!(hint.contains("msgr2.1") && hint.ends_with("try --own=1"));
        }
        assert!(hints(&seen(Some(1), None), &refused(24, 3, &[]), None).is_empty());
    }
}
