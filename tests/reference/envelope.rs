//! Envelopes and challenge proofs (document 01, "The envelope and its counters").

use crate::aes::Block;
use crate::bytes::{part, Reader};
use crate::gcm;

pub type Title = [u8; 8];
pub type Challenge = [u8; 8];

const SECURITY_CONTROL: u8 = 0x30;
const PROOF_CONTROL: u8 = 0x10;
const TAG_LENGTH: usize = 12;

/// How many counters there are: after 4294967295 comes 0.
const COUNTERS: u64 = 1 << 32;

/// The step from the last accepted to a counter, modulo 2^32 (change request Q-3): 0 where it is the last accepted itself.
pub fn step(last: u32, counter: u32) -> u64 {
    (u64::from(counter) + COUNTERS - u64::from(last)) % COUNTERS
}

/// Whose envelopes: the sender's title, the key and the authentication key.
pub struct Sender {
    pub title: Title,
    pub key: Block,
    pub authentication: Block,
}

/// An envelope that has its shape: tag, length, control, counter, cipher text and GCM tag, and nothing behind them.
pub struct Envelope<'a> {
    pub counter: u32,
    cipher_text: &'a [u8],
    seal: &'a [u8],
}

impl Envelope<'_> {
    pub fn read(tag: u8, apdu: &[u8]) -> Option<Envelope<'_>> {
        let mut outer = Reader::new(apdu);
        let content = outer.part(tag)?;
        outer.end()?;
        let mut inner = Reader::new(content);
        inner.fixed(&[SECURITY_CONTROL])?;
        let counter = inner.number32()?;
        let sealed = inner.rest();
        let (cipher_text, seal) = sealed.split_at(sealed.len().checked_sub(TAG_LENGTH)?);
        Some(Envelope { counter, cipher_text, seal })
    }
}

impl Sender {
    fn nonce(&self, counter: u32) -> gcm::Nonce {
        let mut nonce = [0; 12];
        nonce[..8].copy_from_slice(&self.title);
        nonce[8..].copy_from_slice(&counter.to_be_bytes());
        nonce
    }

    fn associated(&self) -> Vec<u8> {
        [&[SECURITY_CONTROL], &self.authentication[..]].concat()
    }

    /// The counter and the plain text of an envelope, where it has its shape and its tag is right.
    pub fn open(&self, tag: u8, apdu: &[u8]) -> Option<(u32, Vec<u8>)> {
        let envelope = Envelope::read(tag, apdu)?;
        Some((envelope.counter, self.opened(&envelope)?))
    }

    /// The plain text of an envelope whose tag is right.
    pub fn opened(&self, envelope: &Envelope) -> Option<Vec<u8>> {
        let Envelope { counter, cipher_text, seal } = *envelope;
        gcm::open(&self.key, &self.nonce(counter), &self.associated(), cipher_text, seal)
    }

    /// The envelope of a plain text under this counter.
    pub fn close(&self, tag: u8, counter: u32, plain: &[u8]) -> Vec<u8> {
        let (cipher_text, seal) = gcm::seal(&self.key, &self.nonce(counter), &self.associated(), plain);
        let content = [&[SECURITY_CONTROL], &counter.to_be_bytes()[..], &cipher_text, &seal[..TAG_LENGTH]].concat();
        part(tag, &content)
    }

    /// What proves to the one who drew the challenge that this sender holds the keys: 10, the counter, the GMAC.
    pub fn proof(&self, counter: u32, challenge: &Challenge) -> Vec<u8> {
        let covered = [&[PROOF_CONTROL], &self.authentication[..], challenge].concat();
        let (_, seal) = gcm::seal(&self.key, &self.nonce(counter), &covered, &[]);
        [&[PROOF_CONTROL], &counter.to_be_bytes()[..], &seal[..TAG_LENGTH]].concat()
    }
}
