//! Values for selectors and parameters: good, too deep, of kinds outside the list, with lengths in a longer form, long.

use crate::random::Random;
use reference::bytes::{part, shortest_length};

/// Any value, seldom a malformed one.
pub fn value(random: &mut Random) -> Vec<u8> {
    match random.below(12) {
        0 => long(random),
        1 => chain(random),
        2..=4 => foreign(random),
        5..=6 => almost_integer(random),
        7 => random.pick(&[vec![0x01, 0x00], vec![0x02, 0x00], vec![0x09, 0x00], vec![0x0A, 0x00]]),
        _ => tree(random, 4),
    }
}

/// A value whose members go down so many levels at most.
fn tree(random: &mut Random, levels: usize) -> Vec<u8> {
    let kind = random.pick(&[0x00, 0x01, 0x01, 0x02, 0x02, 0x03, 0x06, 0x09, 0x0A, 0x0F, 0x11, 0x12, 0x16]);
    match kind {
        0x01 | 0x02 => {
            let count = if levels == 0 { 0 } else { random.below(4) };
            let members: Vec<u8> = (0..count).flat_map(|_| tree(random, levels - 1)).collect();
            [&[kind, count as u8], &members[..]].concat()
        }
        0x09 | 0x0A => {
            let length = random.below(20);
            part(kind, &random.bytes(length))
        }
        _ if random.percent(2) => foreign(random),
        0x00 => vec![kind],
        0x06 => [&[kind], &random.bytes(4)[..]].concat(),
        0x12 => [&[kind], &random.bytes(2)[..]].concat(),
        _ => vec![kind, random.byte()],
    }
}

/// Kinds outside the list, and how many bytes each has in the standard.
const FOREIGN: [(u8, usize); 13] = [
    (0x05, 4),
    (0x07, 4),
    (0x0D, 1),
    (0x10, 2),
    (0x13, 1),
    (0x14, 8),
    (0x15, 8),
    (0x17, 4),
    (0x18, 8),
    (0x19, 12),
    (0x1A, 5),
    (0x1B, 4),
    (0xFF, 0),
];

/// A value of a kind outside the list.
fn foreign(random: &mut Random) -> Vec<u8> {
    match random.below(8) {
        0 => vec![0x04, 0x08, random.byte()],
        1 => vec![0x0C, 0x01, random.byte()],
        2 => vec![random.byte(), random.byte()],
        _ => {
            let (kind, length) = random.pick(&FOREIGN);
            [&[kind], &random.bytes(length)[..]].concat()
        }
    }
}

/// A value that is one integer, or nearly so.
fn almost_integer(random: &mut Random) -> Vec<u8> {
    let byte = random.byte();
    let kind = random.pick(&[0x0F, 0x11, 0x16, 0x03]);
    random.pick(&[
        vec![0x00],
        vec![kind, byte],
        vec![0x01, 0x01, 0x0F, byte],
        vec![0x02, 0x01, 0x0F, byte],
        vec![0x12, 0x00, byte],
        vec![0x0F],
        vec![0x0F, byte, 0x00],
    ])
}

/// Strings and arrays whose lengths take two or three bytes, or would not have to. With 726 and 727 the longest GET and
/// ACTION of H are met, with 747 the longest GET of V.
fn long(random: &mut Random) -> Vec<u8> {
    let length = random.pick(&[0, 5, 127, 128, 129, 255, 256, 257, 600, 725, 726, 727, 728, 746, 747, 748]);
    let (kind, content) = match random.percent(50) {
        true => (random.pick(&[0x09, 0x0A]), random.bytes(length)),
        false => (random.pick(&[0x01, 0x02]), vec![0x00; length]),
    };
    let form = match random.below(5) {
        0 => vec![0x81, length as u8],
        1 => vec![0x82, (length >> 8) as u8, length as u8],
        2 => random.pick(&[vec![0x80], vec![0x83, 0, 0, length as u8], vec![0xFF]]),
        _ => shortest_length(length),
    };
    [&[kind], &form[..], &content].concat()
}

/// Arrays in arrays, about as deep as is allowed.
fn chain(random: &mut Random) -> Vec<u8> {
    let mut bytes = random.pick(&[vec![0x0F, 0x05], vec![0x01, 0x00], vec![0x00]]);
    for _ in 0..random.between(1, 5) {
        bytes = [&[random.pick(&[0x01, 0x02]), 0x01], &bytes[..]].concat();
    }
    bytes
}

/// How many rows of so many columns an answer of 740 bytes holds.
pub fn rows_that_fit(columns: usize) -> u32 {
    ((740 - 2) / (19 + 5 * columns)) as u32
}

/// The descriptor of an entry selection of a profile with so many rows and columns, sometimes with other numbers or of
/// another shape.
pub fn entries(random: &mut Random, rows: usize, columns: usize) -> Vec<u8> {
    let near = random.below(rows + 3) as u32;
    let from = random.pick(&[1, 1, near, near, 0, rows as u32, rows as u32 + 1, u32::MAX]);
    let later = from.saturating_add(random.below(5) as u32);
    let beyond_room = from.saturating_add(rows_that_fit(columns));
    let full = beyond_room - 1;
    let below = from.wrapping_sub(1);
    let to = random.pick(&[0, 0, later, later, full, beyond_room, near, rows as u32, rows as u32 + 1, u32::MAX, below]);
    let columns = match random.percent(85) {
        true => [0x12, 0x00, 0x01, 0x12, 0x00, 0x00],
        false => [0x12, 0x00, random.pick(&[0, 1, 2]), 0x12, random.pick(&[0, 1]), random.pick(&[0, 1])],
    };
    let mut bytes = [&[0x02, 0x04, 0x06], &from.to_be_bytes()[..], &[0x06], &to.to_be_bytes(), &columns].concat();
    if random.percent(10) {
        misshape(random, &mut bytes);
    }
    bytes
}

/// Another count, another kind of the same size, or a member more.
fn misshape(random: &mut Random, bytes: &mut Vec<u8>) {
    match random.below(4) {
        0 => bytes[0] = 0x01,
        1 => {
            bytes[1] = 5;
            bytes.push(0x00);
        }
        2 => {
            bytes[1] = 3;
            bytes.truncate(15);
        }
        _ => {
            bytes.splice(12..15, [0x00]);
        }
    }
}
