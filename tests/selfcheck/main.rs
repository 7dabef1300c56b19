//! The second meter held against published values, so that it is no judge that was never judged: FIPS 197, SP 800-38A, the
//! GCM specification, the Green Book, figure 5-2 of the P2 agreement, document 01's marked examples, counters that run over,
//! ranges of rows, answers in blocks, a worked session, and what it explains.

mod blocks;
mod ciphers;
mod counters;
mod explanations;
mod marked;
mod ranges;
mod session;

/// The bytes of a line of hexadecimal digits; spaces do not count.
fn hex(text: &str) -> Vec<u8> {
    let digits: Vec<u8> = text.chars().filter(|c| !c.is_whitespace()).map(|c| c.to_digit(16).unwrap() as u8).collect();
    digits.chunks(2).map(|pair| pair[0] << 4 | pair[1]).collect()
}

/// So many bytes of a line of hexadecimal digits.
fn array<const N: usize>(text: &str) -> [u8; N] {
    hex(text).try_into().unwrap()
}
