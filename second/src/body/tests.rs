use super::*;

fn refused(place: u64) -> Result<Body, Refusal> {
    Err(Refusal {
        number: 20,
        detail: [place, 0, 0],
    })
}

fn words(numbers: &[u32]) -> Vec<u8> {
    numbers.iter().flat_map(|n| n.to_le_bytes()).collect()
}

#[test]
fn lists() {
    let mut full = words(&[2, 32]);
    full.extend([0; 128]);
    assert!(read(2, &full).is_ok());
    full[4] = 33;
    full.extend([0; 4]);
    assert_eq!(read(2, &full), refused(4));
    assert_eq!(read(2, &words(&[2, 2, 1])), refused(12));
    assert_eq!(read(2, &words(&[2, 2, 1])[..10]), refused(8));
    assert_eq!(read(2, &words(&[2, 2])[..6]), refused(4));
}

#[test]
fn errors() {
    assert_eq!(read(3, &words(&[1, 0, 0, 0])), refused(4));
    assert_eq!(read(3, &words(&[1, 0x7FFF_FFFF, 33])), refused(4));
    let lowest = Body::BadMethod {
        method: 1,
        error: i32::MIN,
        methods: vec![],
        modes: vec![],
    };
    assert_eq!(read(3, &words(&[1, 0x8000_0000, 0, 0])), Ok(lowest));
}

#[test]
fn payloads_and_ends() {
    assert_eq!(read(4, &[5, 0, 0, 0, 1, 2]), refused(0));
    assert_eq!(read(5, &[1, 0, 0, 0, 1, 2]), refused(5));
    assert_eq!(read(20, &[0; 9]), refused(8));
    assert_eq!(read(20, &[0; 7]), refused(0));
    assert_eq!(read(6, &[0; 10]), refused(8));
    assert_eq!(read(12, &[255]), Ok(Body::Reset { full: 255 }));
}

#[test]
fn too_short_too_long_or_unlisted() {
    assert_eq!(read(8, &[0; 51]), refused(0));
    assert_eq!(read(9, &[0; 3]), refused(0));
    assert_eq!(read(11, &[0; 43]), refused(0));
    assert!(read(8, &[0; 52]).is_ok() && read(11, &[0; 44]).is_ok());
    assert_eq!(read(1, &vec![0; SEGMENT_LIMIT as usize + 1]), refused(0));
    assert!(read(1, &vec![0; SEGMENT_LIMIT as usize]).is_ok());
    for tag in (0..=255).filter(|tag| !TAGS.contains(tag)) {
        assert_eq!(read(tag, &[0; 8]), refused(0));
    }
}

#[test]
fn closing_fields_stand_in_order() {
    let mut bytes = vec![2, 1, 0, 0, 7];
    (1..=6u64).for_each(|n| bytes.extend(n.to_le_bytes()));
    let read = read(9, &bytes).expect("an ident");
    assert_eq!(
        read,
        Body::Ident {
            addresses: 258,
            block: vec![7],
            closing: [1, 2, 3, 4, 5, 6],
        }
    );
    assert_eq!(read.bytes(), bytes);
}

#[test]
fn a_fault_comes_before_the_room() {
    let overlong = Body::AuthRequest {
        method: 1,
        modes: vec![0; 33],
        payload: vec![],
    };
    let mut buffer = [9; 2];
    assert_eq!(
        write(Some(&overlong), &mut buffer),
        Err(Refusal::body_malformed(4))
    );
    assert_eq!(
        write(Some(&Body::Number(1)), &mut buffer),
        Err(Refusal::no_room(8))
    );
    assert_eq!(write(None, &mut buffer), Err(Refusal::body_malformed(0)));
    assert_eq!(buffer, [9, 9]);
    assert_eq!(write(Some(&Body::Reset { full: 3 }), &mut buffer), Ok(1));
    assert_eq!(buffer, [3, 9]);
}
