//! Bytes that the library passes on without a look at them, and bodies that it
//! does not read: addresses, the payload of authentication by name alone, the
//! retries, and a message's header and front.

/// What we say that we are. A monitor keeps sessions with other monitors; a
/// client's session ends with its connection.
pub const MONITOR: u8 = 1;

/// The only method, none, and the only connection mode, crc, that we ask for.
pub const METHOD_NONE: u32 = 1;
pub const MODE_CRC: u32 = 1;

/// The signature that both sides send: without a secret there is nothing to sign
/// with.
pub const SIGNATURE: [u8; 32] = [0; 32];

/// A number out of eight bytes, the lowest first; none where they are not there.
pub fn number_at(bytes: &[u8], at: usize) -> Option<u64> {
    let eight = bytes.get(at..)?.get(..8)?;
    Some(u64::from_le_bytes(eight.try_into().ok()?))
}

/// Text with its length in front.
fn put_text(bytes: &mut Vec<u8>, text: &str) {
    bytes.extend((text.len() as u32).to_le_bytes());
    bytes.extend(text.as_bytes());
}

/// The kinds of addresses: msgr2's, and any.
pub const MSGR2: u32 = 2;
pub const ANY: u32 = 3;

/// An address on loopback.
pub fn address(kind: u32, nonce: u32, port: u16) -> Vec<u8> {
    let mut bytes = vec![1, 1, 1];
    for number in [28, kind, nonce, 16] {
        bytes.extend(number.to_le_bytes());
    }
    bytes.extend(2u16.to_le_bytes());
    bytes.extend(port.to_be_bytes());
    bytes.extend([127, 0, 0, 1]);
    bytes.extend([0; 8]);
    bytes
}

/// One address of ours, and what stands behind it, as an ident and a reconnect
/// begin with it: their first 32 bits, and the block. Ceph's programs put a byte 2
/// before the count, so that three bytes of the count are in the first 32 bits.
pub fn addresses(ours: &[u8], behind: &[u8]) -> (u32, Vec<u8>) {
    let block = [&[0], ours, behind].concat();
    (u32::from_le_bytes([2, 1, 0, 0]), block)
}

/// What the method none sends with an auth request: our name, as one monitor
/// tells it to another, with the length in front.
pub fn name(name: &str) -> Vec<u8> {
    let mut payload = vec![1];
    payload.extend(u32::from(MONITOR).to_le_bytes());
    put_text(&mut payload, name);
    payload.extend(0u64.to_le_bytes());
    let length = (payload.len() as u32).to_le_bytes();
    [&length, payload.as_slice()].concat()
}

/// Which version a map has, and the answer.
const GET_VERSION: u16 = 19;
pub const VERSION: u16 = 20;

/// A map that every monitor has, and one that none has: it acknowledges the
/// question and does not answer.
pub const KNOWN: &str = "monmap";
pub const UNKNOWN: &str = "takes";

/// The front of a question about a map. The handle comes back in the answer.
pub fn question(handle: u64, map: &str) -> Vec<u8> {
    let mut front = handle.to_le_bytes().to_vec();
    put_text(&mut front, map);
    front
}

/// The header of a question: its number, and the last of the monitor's messages
/// that came.
pub fn header(number: u64, came: u64) -> Vec<u8> {
    let mut header = [number, number].map(u64::to_le_bytes).concat();
    for half in [GET_VERSION, 127, 1] {
        header.extend(half.to_le_bytes()); // type, priority, version
    }
    header.extend([0; 6]); // padding before the data, and where the data begins
    header.extend(came.to_le_bytes());
    header.extend([0; 5]); // flags, the version to be understood, reserved
    header
}

/// What is read of a message that came.
pub struct Message {
    pub number: u64,
    pub kind: u16,
    /// The last of our messages that the monitor has, its `ack_seq`.
    pub acknowledged: u64,
    /// The handle of the question, in an answer.
    pub handle: u64,
}

/// Reads the header and the front of a message; none where they are too short.
pub fn message(header: &[u8], front: &[u8]) -> Option<Message> {
    Some(Message {
        number: number_at(header, 0)?,
        kind: u16::from_le_bytes(header.get(16..18)?.try_into().ok()?),
        acknowledged: number_at(header, 28)?,
        handle: number_at(front, 0)?,
    })
}
