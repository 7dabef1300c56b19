//! Damage: to byte strings, and to frames whose checks are then made right again or not.

use crate::random::Random;
use reference::check::sent_check;
use reference::frame::{FLAG, HAN, METER, VERIFICATION};

/// A byte string with one thing changed: a bit, a byte, its end, a piece left out or put in.
pub fn changed(random: &mut Random, bytes: &[u8]) -> Vec<u8> {
    let mut bytes = bytes.to_vec();
    let place = random.below(bytes.len().max(1));
    match random.below(6) {
        0 | 1 if !bytes.is_empty() => bytes[place] ^= 1 << random.below(8),
        2 if !bytes.is_empty() => bytes[place] = random.byte(),
        3 => bytes.truncate(place),
        4 if !bytes.is_empty() => drop(bytes.remove(place)),
        _ => bytes.insert(random.pick(&[place, bytes.len()]), random.byte()),
    }
    bytes
}

/// A frame before its checks: each field can be another than it should.
pub struct Parts {
    pub format: u8,
    pub length_off: i32,
    pub destination: u8,
    pub source: u8,
    pub control: u8,
    pub information: Vec<u8>,
    /// A header check, though nothing may follow it: length 9.
    pub header_check_always: bool,
    pub header_check_off: u8,
    pub frame_check_off: u8,
    pub flags: (u8, u8),
}

impl Parts {
    pub fn new(source: u8, control: u8, information: Vec<u8>) -> Parts {
        Parts {
            format: 0xA0,
            length_off: 0,
            destination: METER,
            source,
            control,
            information,
            header_check_always: false,
            header_check_off: 0,
            frame_check_off: 0,
            flags: (FLAG, FLAG),
        }
    }

    /// The bytes: checks are right but for what is said to be off.
    pub fn frame(&self) -> Vec<u8> {
        let header_check = self.header_check_always || !self.information.is_empty();
        let full = if header_check { 9 + self.information.len() } else { 7 };
        let length = (full as i32 + self.length_off) as usize & 0x7FF;
        let mut inside = vec![self.format | (length >> 8) as u8, length as u8];
        inside.extend([self.destination, self.source, self.control]);
        if header_check {
            let [low, high] = sent_check(&inside);
            inside.extend([low ^ self.header_check_off, high]);
            inside.extend(&self.information);
        }
        let [low, high] = sent_check(&inside);
        inside.extend([low ^ self.frame_check_off, high]);
        [&[self.flags.0], &inside[..], &[self.flags.1]].concat()
    }

    /// One field is another than it should be.
    pub fn damage(&mut self, random: &mut Random) {
        match random.below(13) {
            0 => self.format = random.pick(&[0xA8, 0x90, 0xB0, 0x20, 0xE8]),
            1 => self.length_off = random.pick(&[-2, -1, 1, 2, 256, 1024]),
            2 => self.destination = random.pick(&[0x05, 0x01, 0x02, 0xFF, 0xFE, VERIFICATION]),
            3 => self.source = random.pick(&[0x23, 0x25, 0x26, 0x20, 0xFF, METER]),
            4 => self.control = random.byte(),
            5 => self.control = random.pick(&[0x87, 0x97, 0x83, 0x43, 0x03, 0x73, 0x1F, 0x93, 0x53, 0x13]),
            6 => self.information = changed(random, &self.information),
            7 => self.header_check_off = random.pick(&[1, 0x80, 0xFF]),
            8 => self.frame_check_off = random.pick(&[1, 0x80, 0xFF]),
            9 => self.flags = random.pick(&[(FLAG, 0), (0, FLAG), (FLAG ^ 1, FLAG ^ 1)]),
            10 => (self.header_check_always, self.information) = (true, vec![]),
            11 if self.information.len() > 3 => self.information[random.below(3)] ^= 1 << random.below(8),
            _ => self.resize(random),
        }
    }

    /// Information of a length near a limit, the old bytes in front.
    fn resize(&mut self, random: &mut Random) {
        let any = random.below(2100);
        let length = random.pick(&[0, 1, 2, 3, 4, 5, 767, 768, 769, 770, 1500, 2038, 2039, 2040, any]);
        let filling = random.byte();
        self.information.resize(length, filling);
    }
}

/// Bytes that are no frame at all, or almost one.
pub fn stray(random: &mut Random) -> Vec<u8> {
    let length = random.pick(&[0, 1, 2, 7, 8, 9, 10, 11, 12, 20, 778, 779, 2049, 2050, 3000]);
    let mut bytes = random.bytes(length);
    if random.percent(70) && length > 0 {
        bytes[0] = FLAG;
        bytes[length - 1] = FLAG;
    }
    if random.percent(70) && length >= 9 {
        frame_around(random, &mut bytes);
    }
    bytes
}

/// A right format field and a right frame check around what stands there: lengths 8 and 9 can then be met, too.
fn frame_around(random: &mut Random, bytes: &mut [u8]) {
    let length = bytes.len() - 2;
    bytes[1] = 0xA0 | (length >> 8) as u8 & 0x07;
    bytes[2] = length as u8;
    bytes[3] = METER;
    bytes[4] = random.pick(&[VERIFICATION, HAN]);
    let end = bytes.len() - 3;
    let check = sent_check(&bytes[1..end]);
    bytes[end..end + 2].copy_from_slice(&check);
}
