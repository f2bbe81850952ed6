//! Bodies, read and written by both: by the crate's types, and every word of what
//! the library writes of a body.

use crate::guarded::Guarded;
use crate::same::{self, REFUSED};
use crate::tally::Tally;
use mahuixen::sys::{self, Built, RawBody, RawList, RawSpan};
use mahuixen::{read_body, write_body, Body, List};
use second::body::{self, Body as Second};
use second::random::Random;
use second::records::{BodyRecord, WriteRecord};

const READ: &str = "bodies read";
const NOT_READ: &str = "bodies not read: refused 20";
const WRITTEN: &str = "bodies written";
const OTHER_KIND: &str = "bodies of another tag's kind: refused 20";

pub const KINDS: [&str; 7] = [
    READ,
    NOT_READ,
    WRITTEN,
    OTHER_KIND,
    REFUSED[14],
    REFUSED[20],
    REFUSED[26],
];

fn numbers(list: List) -> Vec<u32> {
    list.iter().collect()
}

/// What was read, in the second program's form.
fn as_second(body: Body<List>) -> Second {
    match body {
        Body::Hello { entity, address } => Second::Hello {
            entity,
            address: address.to_vec(),
        },
        Body::AuthRequest {
            method,
            modes,
            payload,
        } => Second::AuthRequest {
            method,
            modes: numbers(modes),
            payload: payload.to_vec(),
        },
        Body::BadMethod {
            method,
            error,
            methods,
            modes,
        } => Second::BadMethod {
            method,
            error,
            methods: numbers(methods),
            modes: numbers(modes),
        },
        Body::More { payload } => Second::AuthMore {
            payload: payload.to_vec(),
        },
        Body::AuthDone {
            global_id,
            mode,
            payload,
        } => Second::AuthDone {
            global_id,
            mode,
            payload: payload.to_vec(),
        },
        Body::Ident {
            addresses,
            block,
            gid,
            global_seq,
            supported,
            required,
            flags,
            cookie,
        } => Second::Ident {
            addresses,
            block: block.to_vec(),
            closing: [gid, global_seq, supported, required, flags, cookie],
        },
        Body::Reconnect {
            addresses,
            block,
            client_cookie,
            server_cookie,
            global_seq,
            connect_seq,
            msg_seq,
        } => Second::Reconnect {
            addresses,
            block: block.to_vec(),
            closing: [
                client_cookie,
                server_cookie,
                global_seq,
                connect_seq,
                msg_seq,
            ],
        },
        Body::Number(n) => Second::Number(n),
        Body::Reset { full } => Second::Reset { full },
        Body::Stamp(stamp) => Second::Stamp(stamp.try_into().expect("eight bytes")),
    }
}

/// A body of the second program as one to be written.
fn to_write(body: &Second) -> Body<'_, &[u32]> {
    match body {
        Second::Hello { entity, address } => Body::Hello {
            entity: *entity,
            address,
        },
        Second::AuthRequest {
            method,
            modes,
            payload,
        } => Body::AuthRequest {
            method: *method,
            modes,
            payload,
        },
        Second::BadMethod {
            method,
            error,
            methods,
            modes,
        } => Body::BadMethod {
            method: *method,
            error: *error,
            methods,
            modes,
        },
        Second::AuthMore { payload } => Body::More { payload },
        Second::AuthDone {
            global_id,
            mode,
            payload,
        } => Body::AuthDone {
            global_id: *global_id,
            mode: *mode,
            payload,
        },
        Second::Ident {
            addresses,
            block,
            closing,
        } => {
            let [gid, global_seq, supported, required, flags, cookie] = *closing;
            let addresses = *addresses;
            Body::Ident {
                addresses,
                block,
                gid,
                global_seq,
                supported,
                required,
                flags,
                cookie,
            }
        }
        Second::Reconnect {
            addresses,
            block,
            closing,
        } => {
            let [client_cookie, server_cookie, global_seq, connect_seq, msg_seq] = *closing;
            Body::Reconnect {
                addresses: *addresses,
                block,
                client_cookie,
                server_cookie,
                global_seq,
                connect_seq,
                msg_seq,
            }
        }
        Second::Number(n) => Body::Number(*n),
        Second::Reset { full } => Body::Reset { full: *full },
        Second::Stamp(stamp) => Body::Stamp(stamp),
    }
}

/// The kind of a tag's body; 0 where it has none.
fn kind_of(tag: u8) -> u64 {
    match tag {
        1 => 1,
        2 => 2,
        3 => 3,
        4 | 5 => 4,
        6 => 5,
        8 | 9 => 6,
        11 => 7,
        10 | 15 | 20 => 8,
        12 => 9,
        18 | 19 => 10,
        _ => 0,
    }
}

/// What is handed in beside the words of a body.
struct Lent<'a> {
    lists: [&'a [u32]; 2],
    bytes: &'a [u8],
}

/// The numbers of a body in their order, and what is lent beside them.
fn parts(body: &Second) -> (Vec<u64>, Lent<'_>) {
    let (mut lists, mut lent): ([&[u32]; 2], &[u8]) = ([&[]; 2], &[]);
    let numbers = match body {
        Second::Hello { entity, address } => {
            lent = address;
            vec![u64::from(*entity)]
        }
        Second::AuthRequest {
            method,
            modes,
            payload,
        } => {
            (lists[0], lent) = (modes, payload);
            vec![u64::from(*method)]
        }
        Second::BadMethod {
            method,
            error,
            methods,
            modes,
        } => {
            lists = [methods, modes];
            vec![u64::from(*method), u64::from(*error as u32)]
        }
        Second::AuthMore { payload } => {
            lent = payload;
            vec![]
        }
        Second::AuthDone {
            global_id,
            mode,
            payload,
        } => {
            lent = payload;
            vec![*global_id, u64::from(*mode)]
        }
        Second::Ident {
            addresses,
            block,
            closing,
        } => {
            lent = block;
            [&[u64::from(*addresses)], &closing[..]].concat()
        }
        Second::Reconnect {
            addresses,
            block,
            closing,
        } => {
            lent = block;
            [&[u64::from(*addresses)], &closing[..]].concat()
        }
        Second::Number(number) => vec![*number],
        Second::Reset { full } => vec![u64::from(*full)],
        Second::Stamp(stamp) => {
            lent = stamp;
            vec![]
        }
    };
    (numbers, Lent { lists, bytes: lent })
}

/// Where a body's first list and its bytes begin in the segment.
fn places(kind: u64) -> [u64; 2] {
    match kind {
        1 => [0, 1],
        2 => [8, 8],
        3 => [12, 0],
        4 | 6 | 7 => [0, 4],
        5 => [0, 12],
        _ => [0, 0],
    }
}

/// Every word of a body that was read from a segment with this tag.
fn words(tag: u8, read: Result<Second, second::refusal::Refusal>) -> RawBody {
    let body = match read {
        Ok(body) => body,
        Err(refusal) => {
            return RawBody {
                refusal: same::numbers(refusal),
                ..RawBody::default()
            }
        }
    };
    let kind = kind_of(tag);
    let (numbers, Lent { lists, bytes }) = parts(&body);
    let mut raw = RawBody {
        kind,
        ..RawBody::default()
    };
    raw.numbers[..numbers.len()].copy_from_slice(&numbers);
    let [first, behind] = places(kind);
    let counts = lists.map(|list| list.len() as u64);
    let list = |at, count| RawList { at, count };
    if matches!(kind, 2 | 3) {
        raw.first = list(first, counts[0]);
    }
    if kind == 3 {
        raw.second = list(first + 4 * counts[0] + 4, counts[1]);
    }
    if !matches!(kind, 3 | 8 | 9) {
        raw.bytes = RawSpan {
            at: behind + 4 * counts[0],
            len: bytes.len() as u64,
        };
    }
    raw
}

pub fn read(random: &mut Random, record: &BodyRecord, tally: &mut Tally) {
    let BodyRecord { tag, bytes } = record;
    let held = Guarded::new(random, bytes);
    let due = body::read(*tag, bytes);
    tally.count([READ, NOT_READ][usize::from(due.is_err())]);
    let (kind, raw) = sys::read_body((*tag).into(), held.content());
    assert_eq!(raw, words(*tag, due.clone()));
    assert_eq!(kind, raw.kind);
    let typed = read_body(*tag, held.content()).map(as_second);
    assert_eq!(
        typed.map_err(|r| same::bare(Err(r)).1),
        due.map_err(same::numbers)
    );
    held.expect(bytes, "segment");
    if random.once_in(8) {
        let wide = u64::from(*tag) | 1 << random.between(8, 63);
        let refused = RawBody {
            refusal: same::CONTRADICTS,
            ..RawBody::default()
        };
        assert_eq!(sys::read_body(wide, bytes), (0, refused));
        tally.count(REFUSED[26]);
    }
}

/// Any words where only the kind and the numbers count.
fn raw(random: &mut Random, kind: u64, numbers: &[u64]) -> RawBody {
    let mut raw = RawBody {
        kind,
        first: RawList {
            at: random.u64(),
            count: random.u64(),
        },
        bytes: RawSpan {
            at: random.u64(),
            len: random.u64(),
        },
        ..RawBody::default()
    };
    raw.numbers[..numbers.len()].copy_from_slice(numbers);
    raw
}

/// Lends what the body has, and something where its kind has nothing.
fn write_raw(random: &mut Random, tag: u64, raw: &RawBody, lent: &Lent, out: &mut [u8]) -> Built {
    let extra = [random.u32(); 3];
    let first = if matches!(raw.kind, 2 | 3) {
        lent.lists[0]
    } else {
        &extra
    };
    let second = if raw.kind == 3 { lent.lists[1] } else { &extra };
    let noise = [random.u8(); 5];
    let bytes = if matches!(raw.kind, 3 | 8 | 9) {
        &noise
    } else {
        lent.bytes
    };
    let held = Guarded::new(random, bytes);
    let written = sys::write_body(out, tag, raw, first, second, held.content());
    held.expect(bytes, "bytes");
    written
}

/// The numbers of a kind with fewer than 64 bits: their places and bits.
fn narrow(kind: u64) -> &'static [(usize, u32)] {
    match kind {
        1 | 9 => &[(0, 8)],
        2 | 6 | 7 => &[(0, 32)],
        3 => &[(0, 32), (1, 32)],
        5 => &[(1, 32)],
        _ => &[],
    }
}

/// A kind, a tag or a number beyond its field is 26, before all else.
fn beyond(random: &mut Random, tag: u8, good: &RawBody, lent: &Lent, out: &mut [u8]) {
    let mut body = *good;
    let mut tag = u64::from(tag);
    let narrow = narrow(good.kind);
    match random.between(1, 3) {
        1 => tag |= 1 << random.between(8, 63),
        2 if !narrow.is_empty() => {
            let (place, bits) = random.pick(narrow);
            body.numbers[place] |= 1 << random.between(bits, 63);
        }
        _ => body.kind = random.pick(&[0, 11, 255, 1 << 32, u64::MAX]),
    }
    let before = out.to_vec();
    let written = write_raw(random, tag, &body, lent, out);
    assert_eq!(written, (0, same::CONTRADICTS), "{body:?}");
    assert!(out == before, "a refused body changed the buffer");
}

/// A tag that has another kind of body, or none.
fn another(random: &mut Random, kind: u64) -> u8 {
    loop {
        let any = random.u8();
        let tag = random.pick(&[1 + any % 20, 1 + any % 20, any]);
        if kind_of(tag) != kind {
            return tag;
        }
    }
}

/// A tag without a body: whatever is handed in is none of its own.
fn no_body(random: &mut Random, tag: u8, out: &mut [u8]) -> Built {
    let raw = raw(random, 8, &[7]);
    let lent = Lent {
        lists: [&[]; 2],
        bytes: &[],
    };
    write_raw(random, tag.into(), &raw, &lent, out)
}

pub fn write(random: &mut Random, record: &WriteRecord, tally: &mut Tally) {
    let before = record.buffer();
    let mut due = before.clone();
    let answer = same::built(body::write(record.body.as_ref(), &mut due));
    let mut out = Guarded::new(random, &before);
    let Some(body) = &record.body else {
        let written = no_body(random, record.tag, out.lend());
        assert_eq!(written, answer);
        out.expect(&before, "out");
        tally.count(OTHER_KIND);
        return;
    };
    let (numbers, lent) = parts(body);
    let raw = raw(random, kind_of(record.tag), &numbers);
    if random.once_in(6) {
        beyond(random, record.tag, &raw, &lent, out.lend());
        tally.count(REFUSED[26]);
    }
    if random.once_in(6) {
        let other = another(random, raw.kind);
        let written = write_raw(random, other.into(), &raw, &lent, out.lend());
        let refused = same::built(Err(second::refusal::Refusal::body_malformed(0)));
        assert_eq!(written, refused, "kind {} for tag {other}", raw.kind);
        out.expect(&before, "out");
        tally.count(OTHER_KIND);
    }
    let written = if random.once_in(2) {
        same::bare(write_body(out.lend(), record.tag, &to_write(body)))
    } else {
        write_raw(random, record.tag.into(), &raw, &lent, out.lend())
    };
    assert_eq!(written, answer);
    out.expect(&due, "out");
    tally.count(match answer.1.number {
        0 => WRITTEN,
        number => REFUSED[number as usize],
    });
}
