//! Generated files for the link checker: good links, links with a fault, links
//! that are cut, and tables that do not fit what is behind them.

use super::link::{flip_a_bit, link, spoil_banner, spoil_frame, Size};
use crate::link::file;
use crate::random::Random;

/// Cuts a link into pieces at random places, some of them empty.
fn pieces<'a>(random: &mut Random, link: &'a [u8]) -> Vec<&'a [u8]> {
    let most = random.pick(&[0, 1, 4, 511]);
    let length = link.len() as u32;
    let mut cuts: Vec<usize> = (0..random.between(0, most))
        .map(|_| random.between(0, length) as usize)
        .collect();
    cuts.sort_unstable();
    cuts.push(link.len());
    let mut from = 0;
    let piece = |to: usize| {
        let piece = &link[from..to];
        from = to;
        piece
    };
    cuts.into_iter().map(piece).collect()
}

/// A table that says something else, or a file that ends early or late.
fn spoil_file(random: &mut Random, bytes: &mut Vec<u8>) {
    let length = bytes.len() as u32;
    let table = 2 + 4 * u32::from(bytes[0]) + 1024 * u32::from(bytes[1]);
    match random.between(1, 6) {
        1 => bytes.truncate(random.between(0, length) as usize),
        2 => bytes.truncate(random.between(0, table.min(length)) as usize),
        3 => bytes[0] = random.pick(&[0, 1, 2, 255]),
        4 => bytes[1] = random.pick(&[0, 1, 2, 3, 255]),
        5 if length > 5 => bytes[random.between(2, 5) as usize] ^= 1 << random.between(0, 7),
        _ => {
            let more = random.between(1, 40);
            bytes.extend(random.bytes(more));
        }
    }
}

/// The file of a seed.
pub fn link_file(seed: u64) -> Vec<u8> {
    let mut random = Random::new(seed);
    let mut made = link(&mut random, Size::Any);
    match random.between(1, 10) {
        1..=4 => {}
        5 => spoil_banner(&mut random, &mut made),
        _ => spoil_frame(&mut random, &mut made),
    }
    let mut bytes = made.bytes();
    // Longer than what is read at a time.
    if random.once_in(20) {
        let frames = bytes[made.banner.len()..].to_vec();
        while !frames.is_empty() && bytes.len() < 40_000 {
            bytes.extend(&frames);
        }
    }
    if random.once_in(4) {
        bytes.truncate(random.between(0, bytes.len() as u32) as usize);
    }
    if random.once_in(10) {
        flip_a_bit(&mut random, &mut bytes);
    }
    let mut bytes = file(&pieces(&mut random, &bytes));
    if random.once_in(4) {
        spoil_file(&mut random, &mut bytes);
    }
    bytes
}
