//! All that a frame call is given, and what can be read of it once so many tests have passed: the fields of the frame, then
//! its APDU, then the envelope, then the request.

use crate::acse::{self, Services, RELEASE_REQUEST};
use crate::check::sent_check;
use crate::envelope::{Envelope, Sender};
use crate::frame::{DATA, HAN, REQUEST_LLC};
use crate::meter::{Ciphered, Meter, Plain, Row};
use crate::objects::{self, Object, Selection};
use crate::receive::{self, has, Keys, Lent, ACTION_BIT, BLOCK_BIT, GET_BIT, SELECTIVE_BIT};
use crate::request::{self, Action, Get, Next, Target};
use crate::soundness::Clause;
use crate::value::Value;
use std::cell::OnceCell;

pub struct Given<'a> {
    pub meter: &'a Meter,
    pub bytes: &'a [u8],
    pub lent: &'a Lent<'a>,
    /// The plain text of the envelope, worked out once.
    opened: OnceCell<Option<Vec<u8>>>,
}

impl<'a> Given<'a> {
    pub fn new(meter: &'a Meter, bytes: &'a [u8], lent: &'a Lent<'a>) -> Given<'a> {
        Given { meter, bytes, lent, opened: OnceCell::new() }
    }

    pub fn is_unsound(&self, clauses: &[Clause]) -> bool {
        self.meter.faults().iter().any(|fault| clauses.contains(fault))
    }

    /// L, the eleven bits.
    pub fn length(&self) -> usize {
        usize::from(u16::from_be_bytes([self.bytes[1], self.bytes[2]]) & 0x07FF)
    }

    pub fn destination(&self) -> u8 {
        self.bytes[3]
    }

    pub fn source(&self) -> u8 {
        self.bytes[4]
    }

    pub fn control(&self) -> u8 {
        self.bytes[5]
    }

    /// Whether the check at this place is right; both begin with the format.
    pub fn is_checked(&self, place: usize) -> bool {
        self.bytes[place..place + 2] == sent_check(&self.bytes[1..place])
    }

    pub fn information(&self) -> &'a [u8] {
        self.bytes.get(8..self.bytes.len() - 3).unwrap_or(&[])
    }

    pub fn is_han(&self) -> bool {
        self.source() == HAN
    }

    pub fn is_linked(&self) -> bool {
        match self.is_han() {
            true => self.meter.han.linked,
            false => self.meter.verification.linked,
        }
    }

    /// The APDU that the frame carries, if it carries one.
    fn apdu(&self) -> Option<&'a [u8]> {
        (self.control() == DATA).then(|| &self.information()[REQUEST_LLC.len()..])
    }

    pub fn tag(&self) -> Option<u8> {
        self.apdu().map(|apdu| apdu[0])
    }

    /// The tags that are permitted in the state of the client's association.
    pub fn permitted(&self) -> &'static [u8] {
        match (self.is_han(), &self.meter.verification.association, &self.meter.han.association) {
            (false, Plain::Associated(_), _) => &[0x62, 0xC0],
            (true, _, Ciphered::Pending { .. }) => &[0x62, 0xCB],
            (true, _, Ciphered::Associated { .. }) => &[0x62, 0xD0, 0xD3],
            _ => &[0x60],
        }
    }

    /// The service bit without which GET and ACTION are not permitted; the challenge needs none.
    pub fn needed_bit(&self) -> Services {
        match self.tag() {
            Some(0xC0 | 0xD0) => GET_BIT,
            Some(0xD3) => ACTION_BIT,
            _ => [0; 3],
        }
    }

    /// The services that are agreed.
    pub fn agreed(&self) -> Services {
        match (self.is_han(), &self.meter.verification.association, &self.meter.han.association) {
            (false, Plain::Associated(agreed), _) => *agreed,
            (true, _, Ciphered::Associated { agreed, .. }) => *agreed,
            _ => [0; 3],
        }
    }

    fn keys(&self) -> Keys {
        self.lent.keys().expect("the lent lengths are right")
    }

    pub fn is_aarq(&self) -> bool {
        let apdu = self.apdu().unwrap_or(&[]);
        match self.is_han() {
            true => acse::read_ciphered(apdu, &self.han_under_guk()).is_some(),
            false => acse::read_plain(apdu, &self.meter.verification.title).is_some(),
        }
    }

    fn han_under_guk(&self) -> Sender {
        let keys = self.keys();
        self.meter.han_as_sender(&keys, keys.guk)
    }

    /// H as the sender of this APDU: under GUK where it answers the challenge, else under the dedicated key.
    fn sender(&self) -> Sender {
        match self.meter.han.association {
            Ciphered::Associated { key, .. } => self.meter.han_as_sender(&self.keys(), key),
            _ => self.han_under_guk(),
        }
    }

    pub fn is_sealed(&self) -> bool {
        matches!(self.tag(), Some(0xCB | 0xD0 | 0xD3))
    }

    pub fn envelope(&self) -> Option<Envelope<'a>> {
        let apdu = self.apdu().filter(|_| self.is_sealed())?;
        Envelope::read(apdu[0], apdu)
    }

    pub fn opened(&self) -> Option<&[u8]> {
        let open = || self.envelope().and_then(|envelope| self.sender().opened(&envelope));
        self.opened.get_or_init(open).as_deref()
    }

    /// The request as it stands, or as its envelope has it.
    fn text(&self) -> Option<&[u8]> {
        match self.is_sealed() {
            true => self.opened(),
            false => self.apdu(),
        }
    }

    fn get(&self) -> Option<Get> {
        let text = self.text().filter(|_| matches!(self.tag(), Some(0xC0 | 0xD0)))?;
        request::read_get(text)
    }

    /// H's request for the next block, where blocks are agreed.
    pub fn next(&self) -> Option<Next> {
        let text = self.text().filter(|_| self.tag() == Some(0xD0) && has(self.agreed(), BLOCK_BIT))?;
        request::read_next(text)
    }

    fn action(&self) -> Option<Action> {
        let text = self.text().filter(|_| matches!(self.tag(), Some(0xCB | 0xD3)))?;
        request::read_action(text)
    }

    pub fn is_malformed(&self) -> bool {
        match self.tag() {
            Some(0x62) => self.text() != Some(&RELEASE_REQUEST),
            Some(0xC0 | 0xD0) => self.get().is_none() && self.next().is_none(),
            Some(0xCB | 0xD3) => self.action().is_none(),
            _ => false,
        }
    }

    pub fn is_to_the_challenge(&self) -> bool {
        self.action().is_some_and(|action| receive::is_to_the_challenge(&action.target))
    }

    pub fn is_proof(&self) -> bool {
        let Ciphered::Pending { meter_challenge, .. } = &self.meter.han.association else { return false };
        let (Some(action), Some(envelope)) = (self.action(), self.envelope()) else { return false };
        self.meter.is_proof(&action, (self.meter.han.accepted, envelope.counter), meter_challenge, &self.keys())
    }

    /// The inner counter of a proof that is right but for, perhaps, its steps.
    pub fn proof_counter(&self) -> Option<u32> {
        let Ciphered::Pending { meter_challenge, .. } = &self.meter.han.association else { return None };
        let action = self.action().filter(|_| self.is_to_the_challenge())?;
        self.meter.proof_counter(&action, meter_challenge, &self.keys())
    }

    /// What a GET, or an ACTION that answers no challenge, is for.
    pub fn target(&self) -> Option<Target> {
        let action = || self.action().filter(|_| self.tag() == Some(0xD3)).map(|action| action.target);
        self.get().map(|get| get.target).or_else(action)
    }

    pub fn object(&self) -> Option<Object<'a>> {
        let name = self.target()?.name;
        match self.is_han() {
            true => Object::of_han(self.meter, name),
            false => Object::of_verification(name),
        }
    }

    /// Whether an object is asked for, and fails so.
    pub fn object_fails(&self, fault: impl Fn(&Object, &Target) -> bool) -> bool {
        self.object().zip(self.target()).is_some_and(|(object, target)| fault(&object, &target))
    }

    /// Whether the object has an attribute, or for an ACTION a method, of this number.
    pub fn is_served(&self, object: &Object, number: u8) -> bool {
        let most = if self.get().is_some() { object.attributes() } else { object.methods() };
        (1..=most).contains(&number)
    }

    /// Whether what goes with the request belongs there and has its shape.
    pub fn is_parameter(&self) -> bool {
        match (self.get(), self.action()) {
            (Some(get), _) => get.selector.is_none() || self.selection().is_some(),
            (None, Some(action)) => matches!(action.parameter, None | Some(Value::Integer(_))),
            (None, None) => false,
        }
    }

    /// What rows are asked for, where a selector belongs and has its shape.
    pub fn selection(&self) -> Option<Selection> {
        let get = self.get().filter(|get| objects::is_of_rows(&get.target))?;
        let selective = self.is_han() && has(self.agreed(), SELECTIVE_BIT);
        get.selector.filter(|_| selective).and_then(|selector| Selection::of(&selector))
    }

    /// The rows that are asked for: all of them, or a selection that can be had.
    pub fn rows(&self) -> Option<Vec<&'a Row>> {
        match self.selection() {
            Some(selection) => selection.picked(&self.meter.rows),
            None => Some(self.meter.rows.iter().collect()),
        }
    }

    /// What a GET answers with.
    pub fn data(&self) -> Option<Value> {
        let target = self.get()?.target;
        Some(self.object()?.attribute(self.meter, &target, &self.rows()?))
    }
}
