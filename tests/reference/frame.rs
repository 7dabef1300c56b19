//! Frames of P2 (document 01, "The frame"): the tests of a received one in their order, and one written.

use crate::check::sent_check;

pub const FLAG: u8 = 0x7E;
pub const METER: u8 = 0x03;
pub const VERIFICATION: u8 = 0x21;
pub const HAN: u8 = 0x27;

pub const LINK_UP: u8 = 0x93;
pub const LINK_DOWN: u8 = 0x53;
pub const DATA: u8 = 0x13;
pub const ACKNOWLEDGE: u8 = 0x73;
pub const DISCONNECTED: u8 = 0x1F;
const REJECT: u8 = 0x97;

pub const REQUEST_LLC: [u8; 3] = [0xE6, 0xE6, 0x00];
const REPLY_LLC: [u8; 3] = [0xE6, 0xE7, 0x00];

/// The longest information, the longest length field and the longest whole frame.
pub const LONGEST_INFORMATION: usize = 768;
pub const LONGEST_L: usize = LONGEST_INFORMATION + 9;
pub const LONGEST_FRAME: usize = LONGEST_L + 2;

const PRESENT_BIT: u8 = 0x10;
const OVER_LENGTH: u8 = 0x04;
const OTHERWISE_BAD: u8 = 0x01;

#[derive(Clone, Copy, Debug)]
pub struct Head {
    pub destination: u8,
    pub source: u8,
    pub control: u8,
}

/// What a received byte string is.
pub enum Received<'a> {
    /// Refusals 4 and 5.
    Unanswered(u8),
    /// Refusals 8 and 9, with the reason that an FRMR gives.
    Rejected(Head, u8, u8),
    Accepted(Head, &'a [u8]),
}

/// The received bytes by the tests of document 01, in their order.
pub fn read(bytes: &[u8]) -> Received<'_> {
    let Some((head, information)) = intact(bytes) else { return Received::Unanswered(4) };
    if [0x87, 0x97].contains(&head.control) {
        return Received::Unanswered(5);
    }
    if bytes.len() - 2 > LONGEST_L {
        return Received::Rejected(head, 8, OVER_LENGTH);
    }
    let segmented = bytes[1] & 0x08 != 0;
    if segmented || !is_for_the_meter(head) || !fits_control(head.control, information) {
        return Received::Rejected(head, 9, OTHERWISE_BAD);
    }
    Received::Accepted(head, information)
}

/// The head and the information where no test of refusal 4 fails.
fn intact(bytes: &[u8]) -> Option<(Head, &[u8])> {
    let inside = bytes.strip_prefix(&[FLAG])?.strip_suffix(&[FLAG])?;
    if bytes.len() < 9 || inside[0] >> 4 != 0xA {
        return None;
    }
    let length = usize::from(inside[0] & 0x07) << 8 | usize::from(inside[1]);
    if length != inside.len() || length == 8 || length == 9 {
        return None;
    }
    let (covered, frame_check) = inside.split_at(length - 2);
    if sent_check(covered) != *frame_check {
        return None;
    }
    if length > 8 && sent_check(&covered[..5]) != covered[5..7] {
        return None;
    }
    let head = Head { destination: inside[2], source: inside[3], control: inside[4] };
    let odd = head.destination & head.source & 1 == 1;
    odd.then(|| (head, covered.get(7..).unwrap_or(&[])))
}

fn is_for_the_meter(head: Head) -> bool {
    head.control & PRESENT_BIT != 0 && head.destination == METER && [VERIFICATION, HAN].contains(&head.source)
}

fn fits_control(control: u8, information: &[u8]) -> bool {
    match control {
        LINK_UP => true,
        LINK_DOWN => information.is_empty(),
        DATA => information.len() >= 4 && information.starts_with(&REQUEST_LLC),
        _ => false,
    }
}

/// A frame with right checks.
pub fn write(head: Head, information: &[u8]) -> Vec<u8> {
    let length = if information.is_empty() { 7 } else { information.len() + 9 };
    let mut inside = vec![0xA0 | (length >> 8) as u8, length as u8, head.destination, head.source, head.control];
    if !information.is_empty() {
        inside.extend(sent_check(&inside));
        inside.extend(information);
    }
    inside.extend(sent_check(&inside));
    [&[FLAG], &inside[..], &[FLAG]].concat()
}

/// The head of a reply: the two address bytes exchanged.
pub fn reply_head(received: Head, control: u8) -> Head {
    Head { destination: received.source, source: received.destination, control }
}

/// The FRMR to a received head.
pub fn reject(received: Head, reason: u8) -> Vec<u8> {
    write(reply_head(received, REJECT), &[received.control, 0x00, reason])
}

/// The reply that carries an APDU.
pub fn carry(received: Head, apdu: &[u8]) -> Vec<u8> {
    write(reply_head(received, DATA), &[&REPLY_LLC, apdu].concat())
}
