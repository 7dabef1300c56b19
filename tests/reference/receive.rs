//! The frame call (document 01, "What goes out" to "The envelope and its counters"; change request Q-4): what a received frame
//! comes to, what goes out and what the meter then holds.

use crate::acse::{self, Services, RELEASE_REQUEST, RELEASE_RESPONSE};
use crate::aes::Block;
use crate::envelope::{step, Challenge, Sender};
use crate::frame::{self, Head, Received};
use crate::meter::{Ciphered, Meter, Plain, CHALLENGE};
use crate::objects::{self, Selection, ROOM, TOO_LONG};
use crate::request::{self, Action, Get, Next, Target};
use crate::soundness::{agreed, OFFERED_CIPHERED, OFFERED_PLAIN};
use crate::transfer::{self, Transfer};
use crate::value::Value;

pub const KNOWN_TAGS: [u8; 9] = [0x60, 0x62, 0xC0, 0xC1, 0xC3, 0xCB, 0xD0, 0xD1, 0xD3];
const NOT_ALLOWED: [u8; 3] = [0xD8, 0x01, 0x01];
const NOT_SUPPORTED: [u8; 3] = [0xD8, 0x02, 0x02];

pub const BLOCK_BIT: Services = [0x00, 0x10, 0x00];
pub const GET_BIT: Services = [0x00, 0x00, 0x10];
pub const SELECTIVE_BIT: Services = [0x00, 0x00, 0x04];
pub const ACTION_BIT: Services = [0x00, 0x00, 0x01];

/// Whether these services have the one of this bit.
pub fn has(services: Services, bit: Services) -> bool {
    agreed(services, bit) == bit
}

const WINDOW: u64 = 180;
const CHALLENGE_CLASS: u16 = 15;
const WRONG_PROOF: u8 = 250;

/// Result codes of a request for a block.
const ENDED_MEANWHILE: u8 = 15;
const NONE_RUNNING: u8 = 16;
const WRONG_NUMBER: u8 = 19;

/// What the caller lends to a frame call; of the reply room its length.
pub struct Lent<'a> {
    pub guk: &'a [u8],
    pub authentication: &'a [u8],
    pub challenge: &'a [u8],
    pub room: usize,
}

pub struct Keys {
    pub guk: Block,
    pub authentication: Block,
    challenge: Challenge,
}

/// The key of an envelope that goes out, and what is in it.
#[derive(Debug)]
pub struct Sealed {
    pub key: Block,
    pub plain: Vec<u8>,
}

/// What a call comes to: its number, what goes out, and in a word what happened.
#[derive(Debug)]
pub struct Outcome {
    pub number: u8,
    pub reply: Vec<u8>,
    pub event: &'static str,
    pub sealed: Option<Sealed>,
}

impl Outcome {
    fn new(number: u8, reply: Vec<u8>, event: &'static str) -> Outcome {
        Outcome { number, reply, event, sealed: None }
    }

    /// Nothing goes out.
    pub fn silent(number: u8, event: &'static str) -> Outcome {
        Outcome::new(number, vec![], event)
    }

    fn exception(apdu: [u8; 3], event: &'static str) -> Outcome {
        Outcome::new(12, apdu.to_vec(), event)
    }
}

impl Lent<'_> {
    /// The keys and the challenge, where their lengths are right.
    pub fn keys(&self) -> Option<Keys> {
        Some(Keys {
            guk: self.guk.try_into().ok()?,
            authentication: self.authentication.try_into().ok()?,
            challenge: self.challenge.try_into().ok()?,
        })
    }

    /// Refusals 1 and 2, before the state is looked at.
    pub fn refusal(&self) -> Option<Outcome> {
        if self.room < frame::LONGEST_FRAME {
            return Some(Outcome::silent(1, "reply room too short"));
        }
        if self.keys().is_none() {
            return Some(Outcome::silent(2, "lent lengths wrong"));
        }
        None
    }
}

impl Meter {
    /// The frame call.
    pub fn receive(&mut self, bytes: &[u8], lent: &Lent) -> Outcome {
        if let Some(refused) = lent.refusal() {
            return refused;
        }
        let keys = lent.keys().expect("the lent lengths are right");
        if !self.is_sound() {
            return Outcome::silent(3, "state unsound");
        }
        match frame::read(bytes) {
            Received::Unanswered(4) => Outcome::silent(4, "no frame"),
            Received::Unanswered(number) => Outcome::silent(number, "FRMR received"),
            Received::Rejected(head, 8, reason) => Outcome::new(8, frame::reject(head, reason), "frame over length"),
            Received::Rejected(head, number, reason) => {
                Outcome::new(number, frame::reject(head, reason), "frame rejected")
            }
            Received::Accepted(head, information) => self.by_control(head, information, &keys),
        }
    }

    fn by_control(&mut self, head: Head, information: &[u8], keys: &Keys) -> Outcome {
        let han = head.source == frame::HAN;
        let linked = if han { self.han.linked } else { self.verification.linked };
        let linking = head.control == frame::LINK_UP;
        let possible = if linking { information.is_empty() && (han || !self.p5) } else { linked };
        if !possible {
            let event = if linking { "link not possible" } else { "link down" };
            return Outcome::new(10, frame::write(frame::reply_head(head, frame::DISCONNECTED), &[]), event);
        }
        if head.control == frame::DATA {
            let apdu = &information[frame::REQUEST_LLC.len()..];
            let answer = if han { self.han_apdu(apdu, keys) } else { self.verification_apdu(apdu) };
            return framed(head, answer);
        }
        self.set_link(han, linking);
        let event = if linking { "link up" } else { "link ended" };
        Outcome::new(0, frame::write(frame::reply_head(head, frame::ACKNOWLEDGE), &[]), event)
    }

    /// A client's link goes up or down; its association ends either way.
    fn set_link(&mut self, han: bool, up: bool) {
        if han {
            self.han.linked = up;
            self.end_han();
        } else {
            self.verification.linked = up;
            self.verification.association = Plain::Absent;
        }
    }

    /// H's association ends, and its transfer is forgotten.
    fn end_han(&mut self) {
        self.han.association = Ciphered::Absent;
        self.transfer = Transfer::Absent;
    }

    fn verification_apdu(&mut self, apdu: &[u8]) -> Outcome {
        match (&self.verification.association, apdu[0]) {
            (_, tag) if !KNOWN_TAGS.contains(&tag) => Outcome::exception(NOT_SUPPORTED, "unknown tag"),
            (Plain::Absent, 0x60) => self.open_plain(apdu),
            (Plain::Associated(_), 0x62) => {
                let outcome = released(apdu);
                if outcome.number == 0 {
                    self.verification.association = Plain::Absent;
                }
                outcome
            }
            (Plain::Associated(agreed), 0xC0) if has(*agreed, GET_BIT) => self.plain_get(apdu),
            _ => Outcome::exception(NOT_ALLOWED, "tag not permitted"),
        }
    }

    fn open_plain(&mut self, apdu: &[u8]) -> Outcome {
        match acse::read_plain(apdu, &self.verification.title) {
            None => Outcome::new(11, acse::refuse(false), "AARQ of V refused"),
            Some(proposed) => {
                let agreed = agreed(proposed, OFFERED_PLAIN);
                self.verification.association = Plain::Associated(agreed);
                Outcome::new(0, acse::accept_plain(&self.title, agreed), "AARQ of V accepted")
            }
        }
    }

    fn plain_get(&mut self, apdu: &[u8]) -> Outcome {
        let Some(get) = request::read_get(apdu) else {
            return malformed_get(apdu, "malformed request of V");
        };
        let result = objects::plain_read(self, &get);
        let (number, event) = judged(&result, "read of V granted");
        Outcome::new(number, request::get_answer(get.target.invoke, &result), event)
    }

    fn han_apdu(&mut self, apdu: &[u8], keys: &Keys) -> Outcome {
        let tag = apdu[0];
        match self.han.association.clone() {
            _ if !KNOWN_TAGS.contains(&tag) => Outcome::exception(NOT_SUPPORTED, "unknown tag"),
            Ciphered::Absent if tag == 0x60 => self.open_ciphered(apdu, keys),
            Ciphered::Pending { .. } | Ciphered::Associated { .. } if tag == 0x62 => {
                let outcome = released(apdu);
                if outcome.number == 0 {
                    self.end_han();
                }
                outcome
            }
            Ciphered::Pending { .. } if tag == 0xCB => self.challenge_answered(apdu, keys),
            Ciphered::Associated { agreed, key } if tag == 0xD0 && has(agreed, GET_BIT) => {
                self.sealed_get(apdu, keys, key, agreed)
            }
            Ciphered::Associated { agreed, key } if tag == 0xD3 && has(agreed, ACTION_BIT) => {
                self.sealed_action(apdu, keys, key)
            }
            _ => Outcome::exception(NOT_ALLOWED, "tag not permitted"),
        }
    }

    pub fn han_as_sender(&self, keys: &Keys, key: Block) -> Sender {
        Sender { title: self.han.title, key, authentication: keys.authentication }
    }

    fn meter_as_sender(&self, keys: &Keys, key: Block) -> Sender {
        Sender { title: self.title, key, authentication: keys.authentication }
    }

    fn next_number(&mut self) -> u32 {
        self.han.sent = self.han.sent.wrapping_add(1);
        self.han.sent
    }

    fn open_ciphered(&mut self, apdu: &[u8], keys: &Keys) -> Outcome {
        let Some(proposal) = acse::read_ciphered(apdu, &self.han_as_sender(keys, keys.guk)) else {
            return Outcome::new(11, acse::refuse(true), "AARQ of H refused");
        };
        let agreed = agreed(proposal.services, OFFERED_CIPHERED);
        self.han.accepted = proposal.counter;
        self.han.association = Ciphered::Pending {
            agreed,
            key: proposal.key,
            client_challenge: proposal.challenge,
            meter_challenge: keys.challenge,
        };
        let plain = acse::initiate_response(agreed);
        let envelope = self.enclosed(0x28, keys, keys.guk, &plain);
        let reply = acse::accept_ciphered(&self.title, &keys.challenge, &envelope);
        Outcome { number: 0, reply, event: "AARQ of H accepted", sealed: Some(Sealed { key: keys.guk, plain }) }
    }

    /// An envelope under the meter's next number.
    fn enclosed(&mut self, tag: u8, keys: &Keys, key: Block, plain: &[u8]) -> Vec<u8> {
        let number = self.next_number();
        self.meter_as_sender(keys, key).close(tag, number, plain)
    }

    fn sealed_answer(
        &mut self,
        tag: u8,
        keys: &Keys,
        key: Block,
        plain: Vec<u8>,
        verdict: (u8, &'static str),
    ) -> Outcome {
        let reply = self.enclosed(tag, keys, key, &plain);
        Outcome { number: verdict.0, reply, event: verdict.1, sealed: Some(Sealed { key, plain }) }
    }

    /// The plain text of a request whose envelope opens and whose counter is in its window; the counter is then the last
    /// accepted.
    fn opened(&mut self, apdu: &[u8], keys: &Keys, key: Block) -> Result<Vec<u8>, Outcome> {
        let Some((counter, plain)) = self.han_as_sender(keys, key).open(apdu[0], apdu) else {
            return Err(Outcome::silent(6, "envelope does not open"));
        };
        if !self.is_in_window(counter) {
            self.end_han();
            return Err(Outcome::silent(7, "counter outside its window"));
        }
        self.han.accepted = counter;
        Ok(plain)
    }

    /// The step from the last accepted is 1 to 180.
    pub fn is_in_window(&self, counter: u32) -> bool {
        (1..=WINDOW).contains(&step(self.han.accepted, counter))
    }

    fn sealed_get(&mut self, apdu: &[u8], keys: &Keys, key: Block, agreed: Services) -> Outcome {
        let plain = match self.opened(apdu, keys, key) {
            Ok(plain) => plain,
            Err(outcome) => return outcome,
        };
        let blocks = has(agreed, BLOCK_BIT);
        if let Some(next) = request::read_next(&plain).filter(|_| blocks) {
            return self.next_block(&next, keys, key);
        }
        let Some(get) = request::read_get(&plain) else {
            return malformed_get(&plain, "malformed GET of H");
        };
        self.transfer = Transfer::Absent;
        let mut result = objects::ciphered_read(self, &get, has(agreed, SELECTIVE_BIT));
        if result.as_ref().is_ok_and(|value| value.bytes().len() > ROOM) {
            if blocks {
                return self.first_block(&get, keys, key);
            }
            result = Err(TOO_LONG);
        }
        let answer = request::get_answer(get.target.invoke, &result);
        let verdict = match get.selector {
            None => judged(&result, "read of H granted"),
            Some(_) if objects::is_by_date(&get) => judged_by_date(&result, self.rows.len()),
            Some(_) => judged(&result, "entries of H granted"),
        };
        self.sealed_answer(0xD4, keys, key, answer, verdict)
    }

    /// A read that is too long for one frame: its first block goes out.
    fn first_block(&mut self, get: &Get, keys: &Keys, key: Block) -> Outcome {
        let selection = get.selector.as_ref().and_then(Selection::of);
        let [all, by_date, by_entries, ..] = BLOCKS;
        let event = match selection {
            None => all,
            Some(Selection::Range { .. }) => by_date,
            Some(Selection::Entries { .. }) => by_entries,
        };
        let (answer, _) = self.block_sent(get.target.invoke, selection, 1);
        self.sealed_answer(0xD4, keys, key, answer, (0, event))
    }

    /// A request for the next block names the one sent last. It is refused by a last block of its own number, and the transfer
    /// is then forgotten.
    fn next_block(&mut self, next: &Next, keys: &Keys, key: Block) -> Outcome {
        let [.., middle_block, last_block] = BLOCKS;
        let [ended, none, wrong] = BLOCK_REFUSALS;
        let (code, event) = match std::mem::replace(&mut self.transfer, Transfer::Absent) {
            Transfer::Running { selection, block } if block == next.number => {
                let (answer, last) = self.block_sent(next.invoke, selection, block + 1);
                let event = if last { last_block } else { middle_block };
                return self.sealed_answer(0xD4, keys, key, answer, (0, event));
            }
            Transfer::Ended => (ENDED_MEANWHILE, ended),
            Transfer::Absent => (NONE_RUNNING, none),
            Transfer::Running { .. } => (WRONG_NUMBER, wrong),
        };
        self.sealed_answer(0xD4, keys, key, request::block_refusal(next, code), (13, event))
    }

    /// The answer with the block of this number, and whether it is the last; if not, a transfer runs.
    fn block_sent(&mut self, invoke: u8, selection: Option<Selection>, number: u32) -> (Vec<u8>, bool) {
        let data = objects::rows_data(self, &selection).expect("the read was granted");
        let (block, last) = transfer::block(&data, number).expect("more data come");
        if !last {
            self.transfer = Transfer::Running { selection, block: number };
        }
        (request::block_answer(invoke, number, block, last), last)
    }

    fn sealed_action(&mut self, apdu: &[u8], keys: &Keys, key: Block) -> Outcome {
        let plain = match self.opened(apdu, keys, key) {
            Ok(plain) => plain,
            Err(outcome) => return outcome,
        };
        let Some(action) = request::read_action(&plain) else {
            return Outcome::exception(NOT_SUPPORTED, "malformed ACTION of H");
        };
        let result = objects::act(self, &action);
        let answer = request::action_answer(action.target.invoke, result);
        self.sealed_answer(0xD7, keys, key, answer, judged(&result, "action of H granted"))
    }

    fn challenge_answered(&mut self, apdu: &[u8], keys: &Keys) -> Outcome {
        let before = self.han.accepted;
        let plain = match self.opened(apdu, keys, keys.guk) {
            Ok(plain) => plain,
            Err(outcome) => return outcome,
        };
        let Some(action) = request::read_action(&plain) else {
            return Outcome::exception(NOT_SUPPORTED, "malformed challenge answer");
        };
        if !is_to_the_challenge(&action.target) {
            return Outcome::exception(NOT_ALLOWED, "another ACTION while pending");
        }
        self.proof_judged(&action, before, keys)
    }

    /// H is associated where its proof is right, else its association ends.
    fn proof_judged(&mut self, action: &Action, before: u32, keys: &Keys) -> Outcome {
        let pending = std::mem::replace(&mut self.han.association, Ciphered::Absent);
        let Ciphered::Pending { agreed, key, client_challenge, meter_challenge } = pending else {
            unreachable!("a challenge is answered while pending");
        };
        let invoke = action.target.invoke;
        if !self.is_proof(action, (before, self.han.accepted), &meter_challenge, keys) {
            let answer = request::action_answer(invoke, Err(WRONG_PROOF));
            return self.sealed_answer(0xCF, keys, keys.guk, answer, (13, "proof wrong"));
        }
        self.han.association = Ciphered::Associated { agreed, key };
        let number = self.next_number();
        let proof = self.meter_as_sender(keys, keys.guk).proof(number, &client_challenge);
        let answer = request::action_return(invoke, &Value::OctetString(proof));
        self.sealed_answer(0xCF, keys, keys.guk, answer, (0, "proof right"))
    }

    /// The proof over this challenge, its step 1 or more and below its envelope's. Both steps are taken from the last accepted
    /// before the envelope; the bounds are that and the envelope's counter.
    pub fn is_proof(&self, action: &Action, bounds: (u32, u32), challenge: &Challenge, keys: &Keys) -> bool {
        let (last, envelope) = bounds;
        let inner = self.proof_counter(action, challenge, keys);
        inner.is_some_and(|inner| (1..step(last, envelope)).contains(&step(last, inner)))
    }

    /// The inner counter of a proof over this challenge that has its shape and its GMAC.
    pub fn proof_counter(&self, action: &Action, challenge: &Challenge, keys: &Keys) -> Option<u32> {
        let Some(Value::OctetString(given)) = &action.parameter else { return None };
        let inner = u32::from_be_bytes(given.get(1..5)?.try_into().ok()?);
        (*given == self.han_as_sender(keys, keys.guk).proof(inner, challenge)).then_some(inner)
    }
}

/// Whether an ACTION answers the meter's challenge.
pub fn is_to_the_challenge(target: &Target) -> bool {
    (target.class, target.name, target.number) == (CHALLENGE_CLASS, CHALLENGE, 1)
}

/// What blocks are sent.
pub const BLOCKS: [&str; 5] = [
    "first block of all rows",
    "first block of rows by date",
    "first block of rows by entries",
    "middle block",
    "last block",
];

/// What refuses a request for a block.
pub const BLOCK_REFUSALS: [&str; 3] =
    ["code 15, the transfer ended meanwhile", "code 16, no transfer runs", "code 19, another block was sent last"];

/// A request for a block where blocks are not agreed: malformed as any other bytes.
pub const BLOCK_NOT_AGREED: [&str; 2] = ["request of H for a block, not agreed", "request of V for a block"];

/// A GET, or what should have been one, that is malformed.
fn malformed_get(apdu: &[u8], otherwise: &'static str) -> Outcome {
    let [han, verification] = BLOCK_NOT_AGREED;
    let event = match (request::read_next(apdu), otherwise) {
        (None, _) => otherwise,
        (Some(_), "malformed GET of H") => han,
        (Some(_), _) => verification,
    };
    Outcome::exception(NOT_SUPPORTED, event)
}

/// What a release comes to.
fn released(apdu: &[u8]) -> Outcome {
    if apdu == RELEASE_REQUEST {
        Outcome::new(0, RELEASE_RESPONSE.to_vec(), "released")
    } else {
        Outcome::exception(NOT_SUPPORTED, "malformed release")
    }
}

/// The number of a request that was answered, and what it came to.
fn judged<T>(result: &Result<T, u8>, granted: &'static str) -> (u8, &'static str) {
    match result {
        Ok(_) => (0, granted),
        Err(4) => (13, "code 4, name unknown"),
        Err(9) => (13, "code 9, class wrong"),
        Err(3) => (13, "code 3, not served"),
        Err(12) => (13, "code 12, parameter of another shape"),
        Err(13) => (13, "code 13, entries wrong"),
        Err(_) => (13, "code 250, answer too long"),
    }
}

/// What reads of rows by date can come to, once the profile is found.
pub const BY_DATE: [&str; 6] = [
    "rows by date, some of them",
    "rows by date, all of them",
    "rows by date, none of them",
    "rows by date, code 12, another shape",
    "rows by date, code 13, clocks wrong",
    "rows by date, code 250, answer too long",
];

/// The number of a read of rows by date, where so many are kept, and what it came to.
fn judged_by_date(result: &Result<Value, u8>, kept: usize) -> (u8, &'static str) {
    let [some, all, none, shape, clocks, length] = BY_DATE;
    match result {
        Ok(Value::Array(rows)) if rows.is_empty() => (0, none),
        Ok(Value::Array(rows)) if rows.len() == kept => (0, all),
        Ok(_) => (0, some),
        Err(12) => (13, shape),
        Err(13) => (13, clocks),
        Err(250) => (13, length),
        Err(_) => judged(result, ""),
    }
}

/// An outcome whose reply is an APDU, put into a frame where there is one.
fn framed(head: Head, answer: Outcome) -> Outcome {
    match answer.reply.is_empty() {
        true => answer,
        false => Outcome { reply: frame::carry(head, &answer.reply), ..answer },
    }
}
