//! Both clients at the plug: frames that go on from where the meter stands, most of them right, the others wrong in one
//! thing. The player knows all that the meter holds, so that every state can be gone on from.

use crate::damage::{changed, stray, Parts};
use crate::opening;
use crate::random::Random;
use crate::ranges::range;
use crate::states::{counter, is_near_end, object};
use crate::values::{entries, rows_that_fit, value};
use reference::acse::RELEASE_REQUEST;
use reference::aes::Block;
use reference::bytes::part;
use reference::envelope::Sender;
use reference::frame::{DATA, HAN, LINK_DOWN, LINK_UP, REQUEST_LLC, VERIFICATION};
use reference::meter::{Ciphered, Meter, Plain, CHALLENGE, DEVICE_NAME, PROFILE, RECORD_NUMBER};
use reference::request::Name;
use reference::soundness::OFFERED_CIPHERED;
use reference::transfer::Transfer;

const GET: u8 = 0xC0;
const ACTION: u8 = 0xC3;
const RANGE: u8 = 1;
const ENTRIES: u8 = 2;

pub struct Player<'a> {
    pub random: &'a mut Random,
    pub meter: &'a Meter,
    pub guk: Block,
    pub authentication: Block,
    /// Frames that went before, to be sent again.
    pub past: &'a [Vec<u8>],
}

impl Player<'_> {
    /// The next frame.
    pub fn frame(&mut self) -> Vec<u8> {
        match self.random.below(100) {
            0..=2 => return stray(self.random),
            3..=4 if !self.past.is_empty() => return self.random.pick(self.past),
            _ => {}
        }
        let mut parts = self.parts();
        if self.random.percent(8) {
            parts.damage(self.random);
            if self.random.percent(40) {
                parts.damage(self.random);
            }
        }
        let frame = parts.frame();
        match self.random.percent(2) {
            true => changed(self.random, &frame),
            false => frame,
        }
    }

    fn parts(&mut self) -> Parts {
        let han = self.random.percent(75);
        let (source, linked) = match han {
            true => (HAN, self.meter.han.linked),
            false => (VERIFICATION, self.meter.verification.linked),
        };
        let control = match self.random.below(100) {
            0..=1 => LINK_DOWN,
            2..=3 => LINK_UP,
            4..=80 if !linked => LINK_UP,
            _ => DATA,
        };
        if control != DATA {
            let length = if self.random.percent(4) { self.random.between(1, 20) } else { 0 };
            return Parts::new(source, control, self.random.bytes(length));
        }
        let mut apdu = if han { self.han_apdu() } else { self.verification_apdu() };
        if self.random.percent(4) {
            apdu = changed(self.random, &apdu);
        }
        Parts::new(source, DATA, [&REQUEST_LLC, &apdu[..]].concat())
    }

    fn verification_apdu(&mut self) -> Vec<u8> {
        let associated = self.meter.verification.association != Plain::Absent;
        match self.random.below(20) {
            0 => self.stray_apdu(),
            1 => self.release(),
            2..=17 if associated => self.request(GET, Some(DEVICE_NAME)),
            18 if associated && self.random.percent(40) => self.next_block(),
            18 if associated => self.request(GET, None),
            _ => {
                let title = self.meter.verification.title;
                opening::plain(self.random, &title)
            }
        }
    }

    fn han_apdu(&mut self) -> Vec<u8> {
        let choice = self.random.below(100);
        match self.meter.han.association {
            _ if choice < 4 => self.stray_apdu(),
            Ciphered::Absent if choice < 90 => self.han_opening(),
            Ciphered::Pending { .. } if choice < 80 => self.challenge_answer(),
            Ciphered::Pending { .. } if choice < 84 => self.release(),
            Ciphered::Associated { agreed, .. } if agreed != OFFERED_CIPHERED && choice < 12 => self.release(),
            Ciphered::Associated { key, .. } if choice < self.share_of_blocks() => self.sealed_block_request(key),
            Ciphered::Associated { key, .. } if choice < 82 => self.sealed_request(0xD0, key, GET),
            Ciphered::Associated { key, .. } if choice < 94 => self.sealed_request(0xD3, key, ACTION),
            Ciphered::Associated { .. } if choice < 96 => self.release(),
            _ => self.untimely(),
        }
    }

    /// How many of a hundred APDUs ask for blocks, less the first few: more where one can be had, or was lost.
    fn share_of_blocks(&self) -> usize {
        match self.meter.transfer {
            Transfer::Absent => 16,
            Transfer::Running { .. } => 50,
            Transfer::Ended => 36,
        }
    }

    fn is_running(&self) -> bool {
        matches!(self.meter.transfer, Transfer::Running { .. })
    }

    /// Whether the rows do not fit one frame, and no transfer stands.
    fn is_long(&self) -> bool {
        self.meter.transfer == Transfer::Absent
            && rows_that_fit(self.meter.columns.len()) < self.meter.rows.len() as u32
    }

    fn sealed_block_request(&mut self, key: Block) -> Vec<u8> {
        let plain = self.next_block();
        let counter = self.next_counter();
        self.sealed(0xD0, key, counter, &plain)
    }

    /// A request for a block: most times behind the one sent last, seldom with a byte too many or too few.
    fn next_block(&mut self) -> Vec<u8> {
        let last = match self.meter.transfer {
            Transfer::Running { block, .. } => block,
            _ => self.random.pick(&[0, 1, 1, 2, 3]),
        };
        let any = self.random.number32();
        let beside = self.random.pick(&[last.wrapping_add(1), last.saturating_sub(1), last ^ 1 << 8, last ^ 1 << 31]);
        let wrong = self.random.pick(&[0, beside, beside, u32::MAX, any]);
        let number = if self.random.percent(80) { last } else { wrong };
        let invoke = self.random.pick(&[0xC1, 0x81, 0x00, any as u8]);
        let mut plain = [&[GET, 0x02, invoke], &number.to_be_bytes()[..]].concat();
        match self.random.below(40) {
            0 => plain.push(0),
            1 => drop(plain.pop()),
            _ => {}
        }
        plain
    }

    /// H's messages whatever state it is in.
    fn untimely(&mut self) -> Vec<u8> {
        let key = self.guk;
        match self.random.below(7) {
            0 => self.han_opening(),
            1 => self.release(),
            2 => self.request(GET, None),
            3 => self.sealed_request(0xD0, key, ACTION),
            4 => self.sealed_request(0xCB, key, GET),
            5 => self.sealed_request(0xD3, key, ACTION),
            _ => self.sealed_request(0xCB, key, ACTION),
        }
    }

    fn release(&mut self) -> Vec<u8> {
        match self.random.percent(20) {
            true => changed(self.random, &RELEASE_REQUEST),
            false => RELEASE_REQUEST.to_vec(),
        }
    }

    /// A tag, known or not, and any bytes.
    fn stray_apdu(&mut self) -> Vec<u8> {
        let any = self.random.byte();
        let tag =
            self.random.pick(&[0x60, 0x62, 0xC0, 0xC1, 0xC3, 0xCB, 0xD0, 0xD1, 0xD3, 0xC8, 0x61, 0xD4, 0x00, any]);
        let length = self.random.pick(&[0, 1, 5, 20, 100, 764]);
        let content = self.random.bytes(length);
        match self.random.percent(50) {
            true => part(tag, &content),
            false => [&[tag], &content[..]].concat(),
        }
    }

    /// H as a sender under this key; seldom not quite H.
    fn sender(&mut self, key: Block) -> Sender {
        let mut sender = Sender { title: self.meter.han.title, key, authentication: self.authentication };
        match self.random.below(150) {
            0 => sender.title = self.meter.title,
            1 => sender.key[15] ^= 1,
            2 => sender.authentication[0] ^= 0x80,
            _ => {}
        }
        sender
    }

    fn han_opening(&mut self) -> Vec<u8> {
        let sender = self.sender(self.guk);
        opening::ciphered(self.random, &sender)
    }

    /// A counter for the next envelope, most times within the window; near an end more often about its edges.
    fn next_counter(&mut self) -> u32 {
        let any = counter(self.random);
        let small = self.random.between(1, 4) as u32;
        let within = self.random.between(1, 180) as u32;
        let last = self.meter.han.accepted;
        let (before, beyond) = (last.wrapping_sub(1), last.wrapping_add(181));
        match self.random.below(60) {
            0 => any,
            1 => self.random.pick(&[last, before, beyond, 0, u32::MAX]),
            2..=4 => last.wrapping_add(180),
            5..=8 => last.wrapping_add(within),
            9..=20 if is_near_end(last) => self.random.pick(&[last, before, before, before, beyond]),
            _ => last.wrapping_add(small),
        }
    }

    fn sealed_request(&mut self, tag: u8, key: Block, service: u8) -> Vec<u8> {
        let plain = self.request(service, None);
        let counter = self.next_counter();
        self.sealed(tag, key, counter, &plain)
    }

    fn sealed(&mut self, tag: u8, key: Block, counter: u32, plain: &[u8]) -> Vec<u8> {
        let sender = self.sender(key);
        let plain = match self.random.percent(6) {
            true => changed(self.random, plain),
            false => plain.to_vec(),
        };
        let mut apdu = match self.random.percent(1) {
            true => sender.close(tag, counter, &[]),
            false => sender.close(tag, counter, &plain),
        };
        match self.random.below(100) {
            0 => apdu = [&[tag, 0x81], &apdu[1..]].concat(),
            1 => apdu = changed(self.random, &apdu),
            _ => {}
        }
        apdu
    }

    /// A GET or an ACTION in its normal form.
    fn request(&mut self, service: u8, wanted: Option<Name>) -> Vec<u8> {
        let (name, class) = match wanted {
            Some(name) => (name, 1),
            None if service == ACTION && self.is_running() && self.random.percent(30) => (PROFILE, 7),
            None if service == ACTION && self.random.percent(60) => (RECORD_NUMBER, 3),
            None if service == GET && self.random.percent(if self.is_long() { 60 } else { 30 }) => (PROFILE, 7),
            None => object(self.random, self.meter),
        };
        let any = self.random.byte();
        let class = if self.random.percent(3) { self.random.pick(&[0, 1, 3, 7, 8, 15, 0x0103, 0x0700]) } else { class };
        let number = match service {
            GET if name == PROFILE => self.random.pick(&[2, 2, 2, 2, 2, 2, 2, 2, 1, any]),
            GET => self.random.pick(&[1, 1, 2, 2, 2, 2, 2, 2, 2, 2, 2, 2, 3, 3, 0, 4, any]),
            _ => self.random.pick(&[1, 1, 1, 1, 1, 1, 1, 0, 2, any]),
        };
        let invoke = self.random.pick(&[0xC1, 0x81, 0x00, any]);
        let head = [&[service, 0x01, invoke], &u16::to_be_bytes(class)[..], &name, &[number]].concat();
        let addition = if service == GET { self.selector(name) } else { self.parameter() };
        [head, addition].concat()
    }

    /// What stands behind the attribute of a GET: nothing, or a selector. Its number is most times that of its descriptor.
    fn selector(&mut self, name: Name) -> Vec<u8> {
        let (rows, columns) = (self.meter.rows.len(), self.meter.columns.len());
        let any = self.random.byte();
        let number = self.random.pick(&[0, 1, 2, 3, any]);
        let (number, descriptor) = match self.random.below(20) {
            0 => return vec![any],
            1..=2 => (number, value(self.random)),
            3 => (number, entries(self.random, rows, columns)),
            4 => (number, range(self.random, self.meter)),
            5..=8 if name == PROFILE => (ENTRIES, entries(self.random, rows, columns)),
            9..=14 if name == PROFILE => (RANGE, range(self.random, self.meter)),
            _ => return vec![0x00],
        };
        [&[0x01, number], &descriptor[..]].concat()
    }

    /// What stands behind the method of an ACTION: nothing, or a parameter.
    fn parameter(&mut self) -> Vec<u8> {
        let any = self.random.byte();
        match self.random.below(20) {
            0 => vec![any],
            1..=4 => [&[0x01], &value(self.random)[..]].concat(),
            5..=9 => vec![0x01, 0x0F, any],
            _ => vec![0x00],
        }
    }

    /// The answer to the meter's challenge; a third of them wrong in one thing, near an end half of them in a counter, too.
    fn challenge_answer(&mut self) -> Vec<u8> {
        let key = self.guk;
        if self.random.percent(4) {
            return self.sealed_request(0xCB, key, ACTION);
        }
        let step = self.random.pick(&[2, 2, 2, 3, 3, 10, 10, 179, 180, 1]);
        let last = self.meter.han.accepted;
        let counter = match self.random.percent(94) {
            true => last.wrapping_add(step),
            false => self.next_counter(),
        };
        let inner = match self.random.percent(if is_near_end(last) { 50 } else { 90 }) {
            true => last.wrapping_add(self.random.between(1, 1.max(step as usize - 1)) as u32),
            false => self.edge(last, counter),
        };
        let parameter = self.proof_parameter(inner);
        let method = if self.random.percent(96) { 1 } else { self.random.pick(&[0, 2]) };
        let name = if self.random.percent(96) { CHALLENGE } else { [0, 0, 40, 0, 0, 255] };
        let class = if self.random.percent(96) { 15 } else { self.random.pick(&[0, 1, 255]) };
        let head = [&[ACTION, 0x01, self.random.byte(), 0x00, class], &name[..], &[method]].concat();
        self.sealed(0xCB, key, counter, &[head, parameter].concat())
    }

    /// A proof's counter at the last accepted, at its envelope's or at the overflow, or one beside.
    fn edge(&mut self, last: u32, envelope: u32) -> u32 {
        let (before, beyond) = (last.wrapping_sub(1), envelope.wrapping_add(1));
        self.random.pick(&[before, before, last, envelope, envelope.wrapping_sub(1), beyond, beyond, 0, u32::MAX])
    }

    fn proof_parameter(&mut self, inner: u32) -> Vec<u8> {
        let Ciphered::Pending { client_challenge, meter_challenge, .. } = self.meter.han.association else {
            return vec![0x00];
        };
        let challenge = if self.random.percent(97) { meter_challenge } else { client_challenge };
        let sender = self.sender(self.guk);
        let mut proof = sender.proof(inner, &challenge);
        match self.random.below(40) {
            0 => return vec![0x00],
            1 => return [&[0x01], &value(self.random)[..]].concat(),
            2 => return [&[0x01], &part(0x0A, &proof)[..]].concat(),
            3 => proof = changed(self.random, &proof),
            4 => proof[0] = 0x30,
            5 => proof.push(0),
            6 => drop(proof.pop()),
            _ => {}
        }
        [&[0x01], &part(0x09, &proof)[..]].concat()
    }
}
