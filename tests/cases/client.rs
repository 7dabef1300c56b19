//! What a client puts on the plug, written from document 01 apart from the crates under test: frames with right checks, the
//! requests that open and end an association, H's proof and H's envelopes.

use reference::acse::Services;
use reference::aes::Block;
use reference::bytes::part;
use reference::envelope::{Challenge, Sender, Title};
use reference::frame::{self, Head, DATA, METER, REQUEST_LLC};
use reference::meter::CHALLENGE;
use reference::request::Name;

/// What the tags of H's requests say: GET and ACTION under the dedicated key, and the answer to the challenge.
pub const SEALED_GET: u8 = 0xD0;
pub const SEALED_ACTION: u8 = 0xD3;
pub const CHALLENGE_ANSWER: u8 = 0xCB;
const SEALED_INITIATE: u8 = 0x21;

/// A frame to the meter with right checks; the source is a client's address as it stands on the wire.
pub fn frame(source: u8, control: u8, information: &[u8]) -> Vec<u8> {
    frame::write(Head { destination: METER, source, control }, information)
}

/// The frame that carries an APDU.
pub fn carried(source: u8, apdu: &[u8]) -> Vec<u8> {
    frame(source, DATA, &[&REQUEST_LLC, apdu].concat())
}

/// What an AARQ proposes: the services, and the longest APDU that the client takes.
#[derive(Clone, Copy)]
pub struct Proposal {
    pub services: Services,
    pub size: u16,
}

impl Proposal {
    /// The initiate request with this field for the dedicated key.
    fn initiate(&self, key: &[u8]) -> Vec<u8> {
        let head = [0x00, 0x00, 0x06, 0x5F, 0x1F, 0x04, 0x00];
        [&[0x01], key, &head, &self.services, &self.size.to_be_bytes()].concat()
    }
}

/// V's AARQ.
pub fn plain_opening(title: &Title, proposal: &Proposal) -> Vec<u8> {
    let fields = [
        part(0xA1, &[0x06, 0x07, 0x60, 0x85, 0x74, 0x05, 0x08, 0x01, 0x01]),
        part(0xA6, &part(0x04, title)),
        part(0x8B, &[0x60, 0x85, 0x74, 0x05, 0x08, 0x02, 0x00]),
        part(0xBE, &part(0x04, &proposal.initiate(&[0x00]))),
    ];
    part(0x60, &fields.concat())
}

/// H: its title, the keys that it shares with the meter, the dedicated key and the challenge that it draws.
#[derive(Clone)]
pub struct Han {
    pub title: Title,
    pub guk: Block,
    pub authentication: Block,
    pub dedicated: Block,
    pub challenge: Challenge,
}

impl Han {
    fn sender(&self, key: Block) -> Sender {
        Sender { title: self.title, key, authentication: self.authentication }
    }

    /// H's AARQ, its initiate request in an envelope under this counter.
    pub fn opening(&self, counter: u32, proposal: &Proposal) -> Vec<u8> {
        let initiate = proposal.initiate(&[&[0x01, 0x10], &self.dedicated[..]].concat());
        let fields = [
            part(0xA1, &[0x06, 0x07, 0x60, 0x85, 0x74, 0x05, 0x08, 0x01, 0x03]),
            part(0xA6, &part(0x04, &self.title)),
            part(0x8A, &[0x07, 0x80]),
            part(0x8B, &[0x60, 0x85, 0x74, 0x05, 0x08, 0x02, 0x05]),
            part(0xAC, &part(0x80, &self.challenge)),
            part(0xBE, &part(0x04, &self.sealed(SEALED_INITIATE, counter, &initiate))),
        ];
        part(0x60, &fields.concat())
    }

    /// The proof that H holds the keys, over the meter's challenge: 17 bytes.
    pub fn proof(&self, inner: u32, challenge: &Challenge) -> Vec<u8> {
        self.sender(self.guk).proof(inner, challenge)
    }

    /// The envelope of a plain text: under GUK where it opens the association, else under the dedicated key.
    pub fn sealed(&self, tag: u8, counter: u32, plain: &[u8]) -> Vec<u8> {
        let key = match tag {
            SEALED_INITIATE | CHALLENGE_ANSWER => self.guk,
            _ => self.dedicated,
        };
        self.sender(key).close(tag, counter, plain)
    }

    /// The answer to the meter's challenge: the proof takes the inner counter, its envelope the outer one.
    pub fn entry(&self, inner: u32, outer: u32, challenge: &Challenge) -> Vec<u8> {
        self.sealed(CHALLENGE_ANSWER, outer, &proof_request(&CHALLENGE, &self.proof(inner, challenge)))
    }
}

/// The ACTION that brings a proof to method 1 of this name, in its plain form.
pub fn proof_request(name: &Name, proof: &[u8]) -> Vec<u8> {
    [&[0xC3, 0x01, 0xC1, 0x00, 0x0F], &name[..], &[0x01, 0x01], &part(0x09, proof)].concat()
}
