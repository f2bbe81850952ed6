use super::*;

fn bytes(hex: &str) -> Vec<u8> {
    let digit = |place: usize| u8::from_str_radix(&hex[place..place + 2], 16).expect("hex");
    (0..hex.len()).step_by(2).map(digit).collect()
}

fn array<const N: usize>(hex: &str) -> [u8; N] {
    bytes(hex).try_into().expect("its length")
}

#[test]
fn fips_197_substitution() {
    // 5.1.1: the table's corners, and the example 53 becomes ED.
    let table = substitutions();
    assert_eq!((table[0], table[0x53], table[255]), (0x63, 0xED, 0x16));
    let mut seen = *table;
    seen.sort_unstable();
    assert!(seen
        .iter()
        .enumerate()
        .all(|(place, &byte)| place == usize::from(byte)));
}

#[test]
fn fips_197_field() {
    // 4.2: 57 times 83 is C1, 57 times 13 is FE.
    assert_eq!((product(0x57, 0x83), product(0x57, 0x13)), (0xC1, 0xFE));
}

#[test]
fn fips_197_key_expansion() {
    // Appendix A.1: the last four words.
    let keys = expand(&array("2b7e151628aed2a6abf7158809cf4f3c"));
    assert_eq!(keys[10], array("d014f9a8c9ee2589e13f0cc8b6630ca6"));
}

#[test]
fn fips_197_ciphers() {
    // Appendix B, and the AES-128 vector of the appendix behind it.
    let cipher = Cipher::new(&array("2b7e151628aed2a6abf7158809cf4f3c"));
    let block = cipher.encrypt(array("3243f6a8885a308d313198a2e0370734"));
    assert_eq!(block, array("3925841d02dc09fbdc118597196a0b32"));
    let cipher = Cipher::new(&array("000102030405060708090a0b0c0d0e0f"));
    let block = cipher.encrypt(array("00112233445566778899aabbccddeeff"));
    assert_eq!(block, array("69c4e0d86a7b0430d8cdb78070b4c55a"));
}

#[test]
fn wrong_tags_are_refused_and_zeroed() {
    let (key, nonce) = ([7; 16], [9; 12]);
    let mut sealed = [0; 36];
    assert_eq!(
        seal(&key, &nonce, b"twenty bytes of text", &mut sealed),
        Ok(36)
    );
    for bit in 0..36 * 8 {
        let mut damaged = sealed;
        damaged[bit / 8] ^= 1 << (bit % 8);
        let mut out = [0xAA; 24];
        assert_eq!(
            open(&key, &nonce, &damaged, &mut out),
            Err(Refusal::auth_tag())
        );
        assert_eq!((&out[..20], &out[20..]), (&[0; 20][..], &[0xAA; 4][..]));
    }
    let mut out = [0xAA; 24];
    assert_eq!(open(&key, &nonce, &sealed, &mut out), Ok(20));
    assert_eq!(
        (&out[..20], &out[20..]),
        (&b"twenty bytes of text"[..], &[0xAA; 4][..])
    );
}

#[test]
fn refusals_change_nothing() {
    let (key, nonce) = ([1; 16], [2; 12]);
    let mut out = [3; 20];
    assert_eq!(
        seal(&key, &nonce, &[4; 5], &mut out),
        Err(Refusal::no_room(21))
    );
    assert_eq!(
        open(&key, &nonce, &[4; 15], &mut out),
        Err(Refusal::auth_tag())
    );
    assert_eq!(
        open(&key, &nonce, &[4; 37], &mut out),
        Err(Refusal::no_room(21))
    );
    assert_eq!(out, [3; 20]);
}
