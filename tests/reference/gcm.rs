//! GCM of SP 800-38D over AES-128 with nonces of twelve bytes. A block is a number of 128 bits, its first bit the highest;
//! the field product goes bit by bit, as the standard's algorithm 1 does.

use crate::aes::{Block, Cipher};

pub type Nonce = [u8; 12];

/// x^128 + x^7 + x^2 + x + 1, without its highest term.
const REDUCTION: u128 = 0xE1 << 120;

fn field_product(x: u128, y: u128) -> u128 {
    let mut sum = 0;
    let mut power = y;
    for place in (0..128).rev() {
        sum ^= power & (x >> place & 1).wrapping_neg();
        power = (power >> 1) ^ (REDUCTION & (power & 1).wrapping_neg());
    }
    sum
}

/// A string as blocks, the last one filled up with zeros.
fn blocks(bytes: &[u8]) -> impl Iterator<Item = u128> + '_ {
    bytes.chunks(16).map(|part| {
        let mut block = [0; 16];
        block[..part.len()].copy_from_slice(part);
        u128::from_be_bytes(block)
    })
}

fn ghash(subkey: u128, associated: &[u8], cipher_text: &[u8]) -> u128 {
    let lengths = ((associated.len() as u128 * 8) << 64) | (cipher_text.len() as u128 * 8);
    let all = blocks(associated).chain(blocks(cipher_text)).chain([lengths]);
    all.fold(0, |hash, block| field_product(hash ^ block, subkey))
}

/// The counter block of this nonce and number.
fn counter_block(nonce: &Nonce, number: u32) -> Block {
    let mut block = [0; 16];
    block[..12].copy_from_slice(nonce);
    block[12..].copy_from_slice(&number.to_be_bytes());
    block
}

/// The text combined with the key stream from counter block 2 on; the same way there and back.
fn streamed(cipher: &Cipher, nonce: &Nonce, text: &[u8]) -> Vec<u8> {
    let stream = (2..).flat_map(|number| cipher.encrypt(&counter_block(nonce, number)));
    text.iter().zip(stream).map(|(byte, key)| byte ^ key).collect()
}

fn tag(cipher: &Cipher, nonce: &Nonce, associated: &[u8], cipher_text: &[u8]) -> [u8; 16] {
    let subkey = u128::from_be_bytes(cipher.encrypt(&[0; 16]));
    let mask = u128::from_be_bytes(cipher.encrypt(&counter_block(nonce, 1)));
    (ghash(subkey, associated, cipher_text) ^ mask).to_be_bytes()
}

/// The cipher text and the whole tag.
pub fn seal(key: &Block, nonce: &Nonce, associated: &[u8], plain: &[u8]) -> (Vec<u8>, [u8; 16]) {
    let cipher = Cipher::new(key);
    let cipher_text = streamed(&cipher, nonce, plain);
    let tag = tag(&cipher, nonce, associated, &cipher_text);
    (cipher_text, tag)
}

/// The plain text, where the tag (its first bytes, as many as are given) is right.
pub fn open(key: &Block, nonce: &Nonce, associated: &[u8], cipher_text: &[u8], given: &[u8]) -> Option<Vec<u8>> {
    let cipher = Cipher::new(key);
    let right = tag(&cipher, nonce, associated, cipher_text);
    right.starts_with(given).then(|| streamed(&cipher, nonce, cipher_text))
}
