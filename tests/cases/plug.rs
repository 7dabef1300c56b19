//! What clients do at the plug, in words: the frames that a call of V or H stands for.

use crate::client::{self, proof_request, Han, Proposal, CHALLENGE_ANSWER, SEALED_ACTION, SEALED_GET};
use crate::clocks;
use crate::words::{bytes, number, overlay, range, Words};
use reference::acse::RELEASE_REQUEST;
use reference::aes::Block;
use reference::bytes::part;
use reference::check::sent_check;
use reference::envelope::{Challenge, Title};
use reference::frame::{HAN, LINK_DOWN, LINK_UP, VERIFICATION};
use reference::meter::{Ciphered, Meter, CHALLENGE};
use reference::request::Name;
use reference::soundness::{OFFERED_CIPHERED, OFFERED_PLAIN};

/// The keys and the challenge that a frame call is lent, which are H's keys, too.
pub const GUK: Block = [0, 1, 2, 3, 4, 5, 6, 7, 8, 9, 10, 11, 12, 13, 14, 15];
pub const AUTHENTICATION: Block =
    [0xD0, 0xD1, 0xD2, 0xD3, 0xD4, 0xD5, 0xD6, 0xD7, 0xD8, 0xD9, 0xDA, 0xDB, 0xDC, 0xDD, 0xDE, 0xDF];
pub const METER_CHALLENGE: Challenge = *b"P6wRJ21F";

/// H's own: the dedicated key, the challenge that it draws, the counter of its AARQ.
pub const DEDICATED: Block =
    [0x00, 0x11, 0x22, 0x33, 0x44, 0x55, 0x66, 0x77, 0x88, 0x99, 0xAA, 0xBB, 0xCC, 0xDD, 0xEE, 0xFF];
const HAN_CHALLENGE: Challenge = *b"K56iVagY";
const OPENING_COUNTER: u32 = 200;

const LEAST_SIZE: u16 = 768;
const GET: u8 = 0xC0;
const ACTION: u8 = 0xC3;
const INVOKE: u8 = 0xC1;

/// The selectors of rows: by date, and by their places.
const RANGE: u8 = 1;
const ENTRIES: u8 = 2;

/// The clock as a column, by which a range restricts: class 8, its name, attribute 2, index 0.
const CLOCK_COLUMN: [u8; 18] = [2, 4, 0x12, 0, 8, 9, 6, 0, 0, 1, 0, 0, 0xFF, 0x0F, 2, 0x12, 0, 0];

/// The frames of V's words.
pub fn verification(mut words: Words, meter: &Meter) -> Result<Vec<Vec<u8>>, String> {
    let title = words.array_or("title", meter.verification.title)?;
    Plug { address: VERIFICATION, title, challenge: METER_CHALLENGE, keys: None, words, meter }.frames()
}

/// The frames of H's words; the challenge is the one that is lent to them.
pub fn han(mut words: Words, meter: &Meter, challenge: &[u8]) -> Result<Vec<Vec<u8>>, String> {
    let title = words.array_or("title", meter.han.title)?;
    let challenge = challenge.try_into().unwrap_or(METER_CHALLENGE);
    let keys = match words.bytes("keys")?.as_deref() {
        None => None,
        Some(&[byte]) => Some([byte; 16]),
        Some(_) => return Err("keys takes one byte".into()),
    };
    Plug { address: HAN, title, challenge, keys, words, meter }.frames()
}

/// The bytes of a frame as they stand, but for `CHECK`: the right check of all bytes behind the first.
pub fn raw(mut words: Words) -> Result<Vec<u8>, String> {
    let mut frame = vec![];
    for word in words.rest() {
        match word {
            "CHECK" if !frame.is_empty() => frame.extend(sent_check(&frame[1..])),
            _ => frame.extend(bytes(word)?),
        }
    }
    Ok(frame)
}

/// A client at the plug of the meter as it stands, and the words that say what it does.
struct Plug<'a> {
    address: u8,
    title: Title,
    challenge: Challenge,
    /// In the place of all keys of H: sixteen bytes of one value.
    keys: Option<Block>,
    words: Words<'a>,
    meter: &'a Meter,
}

impl Plug<'_> {
    fn frames(mut self) -> Result<Vec<Vec<u8>>, String> {
        let frames = match self.words.word("what the client does")? {
            "up" => vec![self.link(LINK_UP)],
            "down" => vec![self.link(LINK_DOWN)],
            "frame" => {
                let control = self.words.byte("the control")?;
                vec![client::frame(self.address, control, &self.words.all_bytes()?)]
            }
            "enters" => self.entrance()?,
            word => {
                let mut apdu = self.apdu(word)?;
                apdu.extend(self.words.bytes("behind")?.unwrap_or_default());
                vec![client::carried(self.address, &apdu)]
            }
        };
        self.words.end().map(|()| frames)
    }

    fn is_han(&self) -> bool {
        self.address == HAN
    }

    fn link(&self, control: u8) -> Vec<u8> {
        client::frame(self.address, control, &[])
    }

    /// The frames after which the client may ask: link up, AARQ, and H's proof.
    fn entrance(&mut self) -> Result<Vec<Vec<u8>>, String> {
        let counter = self.opening_counter()?;
        let mut frames = vec![self.link(LINK_UP), client::carried(self.address, &self.opening(counter)?)];
        if self.is_han() {
            let entry = self.han().entry(counter.wrapping_add(1), counter.wrapping_add(2), &self.challenge);
            frames.push(client::carried(self.address, &entry));
        }
        Ok(frames)
    }

    fn apdu(&mut self, word: &str) -> Result<Vec<u8>, String> {
        match word {
            "apdu" => self.words.all_bytes(),
            "release" => Ok(RELEASE_REQUEST.to_vec()),
            "aarq" => {
                let counter = self.opening_counter()?;
                let apdu = self.opening(counter)?;
                Ok(if self.is_han() { self.forged(apdu) } else { apdu })
            }
            "get" if self.is_han() => self.sealed(SEALED_GET, |plug| plug.request(GET)),
            "next" if self.is_han() => self.sealed(SEALED_GET, Plug::next_block),
            "act" if self.is_han() => self.sealed(SEALED_ACTION, |plug| plug.request(ACTION)),
            "get" => self.request(GET),
            "next" => self.next_block(),
            "act" => self.request(ACTION),
            "seals" if self.is_han() => {
                let tag = self.words.byte("the tag")?;
                self.sealed(tag, |plug| bytes(plug.words.word("what is sealed")?))
            }
            "proof" if self.is_han() => self.proof(),
            _ => Err(format!("\"{word}\" is nothing that this client does")),
        }
    }

    fn han(&self) -> Han {
        Han {
            title: self.title,
            guk: self.keys.unwrap_or(GUK),
            authentication: self.keys.unwrap_or(AUTHENTICATION),
            dedicated: self.keys.unwrap_or(DEDICATED),
            challenge: HAN_CHALLENGE,
        }
    }

    /// The counter of H's AARQ; V's has none.
    fn opening_counter(&mut self) -> Result<u32, String> {
        match self.is_han() {
            true => self.counter("counter", OPENING_COUNTER),
            false => Ok(0),
        }
    }

    /// The AARQ; H's envelope has this counter.
    fn opening(&mut self, counter: u32) -> Result<Vec<u8>, String> {
        let offered = if self.is_han() { OFFERED_CIPHERED } else { OFFERED_PLAIN };
        let services = self.words.array_or("services", offered)?;
        let proposal = Proposal { services, size: self.words.number_or("size", LEAST_SIZE)? };
        Ok(match self.is_han() {
            true => self.han().opening(counter, &proposal),
            false => client::plain_opening(&self.title, &proposal),
        })
    }

    /// A counter: as given, or so many steps on from the last that the meter accepted.
    fn counter(&mut self, key: &str, otherwise: u32) -> Result<u32, String> {
        let Some(given) = self.words.option(key) else { return Ok(otherwise) };
        match given.strip_prefix('+') {
            Some(ahead) => Ok(self.meter.han.accepted.wrapping_add(number(ahead)?)),
            None => number(given),
        }
    }

    /// Where the words say so, the last byte is another: it belongs to the tag of the envelope.
    fn forged(&mut self, mut apdu: Vec<u8>) -> Vec<u8> {
        if let (true, Some(last)) = (self.words.flag("forged"), apdu.last_mut()) {
            *last ^= 1;
        }
        apdu
    }

    /// An envelope of H with the next counter, or with the one that the words give.
    fn sealed(&mut self, tag: u8, plain: impl Fn(&mut Self) -> Result<Vec<u8>, String>) -> Result<Vec<u8>, String> {
        let plain = plain(self)?;
        let counter = self.counter("counter", self.meter.han.accepted.wrapping_add(1))?;
        let apdu = self.han().sealed(tag, counter, &plain);
        Ok(self.forged(apdu))
    }

    /// The answer to the challenge that the meter has sent.
    fn proof(&mut self) -> Result<Vec<u8>, String> {
        let last = self.meter.han.accepted;
        let inner = self.counter("inner", last.wrapping_add(1))?;
        let outer = self.counter("counter", last.wrapping_add(2))?;
        let name = self.words.option("name").map_or(Ok(CHALLENGE), name)?;
        let challenge = match self.meter.han.association {
            Ciphered::Pending { meter_challenge, .. } => meter_challenge,
            _ => self.challenge,
        };
        let mut proof = self.han().proof(inner, &challenge);
        if self.words.flag("wrong") {
            proof[16] ^= 1;
        }
        let apdu = self.han().sealed(CHALLENGE_ANSWER, outer, &proof_request(&name, &proof));
        Ok(self.forged(apdu))
    }

    /// A GET or an ACTION in its plain form: class, name, attribute or method, and what goes with it.
    fn request(&mut self, service: u8) -> Result<Vec<u8>, String> {
        let class: u16 = self.words.number("the class")?;
        let name = name(self.words.word("the name")?)?;
        let number: u8 = self.words.number("the attribute or method")?;
        let [invoke] = self.words.array_or("invoke", [INVOKE])?;
        let head = [&[service, 0x01, invoke], &class.to_be_bytes()[..], &name, &[number]].concat();
        Ok([head, self.addition()?].concat())
    }

    /// A request for the block behind the one of this number.
    fn next_block(&mut self) -> Result<Vec<u8>, String> {
        let number: u32 = self.words.number("the number of a block")?;
        let [invoke] = self.words.array_or("invoke", [INVOKE])?;
        Ok([&[GET, 0x02, invoke], &number.to_be_bytes()[..]].concat())
    }

    /// What stands behind the attribute or method: nothing, or these bytes, entries or a range.
    fn addition(&mut self) -> Result<Vec<u8>, String> {
        let given = [self.words.bytes("with")?, self.entries()?, self.range()?];
        match &given.into_iter().flatten().collect::<Vec<_>>()[..] {
            [] => Ok(vec![0x00]),
            [addition] => Ok([&[0x01], &addition[..]].concat()),
            _ => Err("with, entries and from exclude each other".into()),
        }
    }

    /// An entry selection: its selector, then from and to, of the entries and of the columns.
    fn entries(&mut self) -> Result<Option<Vec<u8>>, String> {
        let Some(entries) = self.words.option("entries") else { return Ok(None) };
        let (from, to): (u32, u32) = range(entries)?;
        let (first, last): (u16, u16) = self.words.option("columns").map_or(Ok((1, 0)), range)?;
        let selector: u8 = self.words.number_or("selector", ENTRIES)?;
        let entries = [&[0x06], &from.to_be_bytes()[..], &[0x06], &to.to_be_bytes()].concat();
        let columns = [&[0x12], &first.to_be_bytes()[..], &[0x12], &last.to_be_bytes()].concat();
        Ok(Some([vec![selector, 0x02, 0x04], entries, columns].concat()))
    }

    /// A range: its selector, then the column that restricts, from, to and the columns that are picked, none if nothing is
    /// said.
    fn range(&mut self) -> Result<Option<Vec<u8>>, String> {
        let Some(from) = self.words.option("from") else { return Ok(None) };
        let to = self.words.option("to").ok_or("to is missing")?;
        let string = |end| clocks::end(end, &self.meter.clock).map(|end| part(0x09, &end));
        let (from, to) = (string(from)?, string(to)?);
        let object = self.words.bytes("object")?.unwrap_or(CLOCK_COLUMN.into());
        let picked = self.words.bytes("picked")?.unwrap_or(vec![0x01, 0x00]);
        let mut descriptor = [vec![0x02, 0x04], object, from, to, picked].concat();
        if let Some(change) = self.words.option("at") {
            overlay(&mut descriptor, change)?;
        }
        let selector: u8 = self.words.number_or("selector", RANGE)?;
        Ok(Some([vec![selector], descriptor].concat()))
    }
}

/// A name as six numbers with dots between them.
fn name(text: &str) -> Result<Name, String> {
    let numbers = text.split('.').map(number).collect::<Result<Vec<u8>, _>>()?;
    numbers.try_into().map_err(|_| format!("\"{text}\" is no name of six numbers"))
}
