//! Counters by their steps modulo 2^32 (change request Q-3): the examples of document 02, the whole window around the overflow
//! and away from it, and a proof's two counters at every edge. Every frame is also explained.

use crate::hex;
use reference::aes::Block;
use reference::envelope::{step, Sender};
use reference::frame::{self, Head};
use reference::meter::{Ciphered, Meter};
use reference::receive::Lent;

const GUK: Block = [0x11; 16];
const AUTHENTICATION: Block = [0x22; 16];
const DEDICATED: Block = [0x33; 16];
const CLIENT_CHALLENGE: [u8; 8] = [0x44; 8];
const METER_CHALLENGE: [u8; 8] = [0x55; 8];
const AGREED: [u8; 3] = [0, 0, 0x15];

/// Last accepted counters: both ends, the edges of the window before them, and the middle.
const LAST: [u32; 16] = [
    0,
    1,
    179,
    180,
    181,
    200,
    0x7FFF_FFFF,
    0x8000_0000,
    4294967114,
    4294967115,
    4294967116,
    4294967200,
    4294967290,
    4294967293,
    4294967294,
    4294967295,
];

/// A meter with this association of H, where this counter was the last accepted.
fn meter(association: Ciphered, last: u32) -> Meter {
    let mut meter = Meter::new([0x54; 16], [1; 8], [2; 8], [3; 8]);
    meter.han.linked = true;
    meter.han.association = association;
    meter.han.accepted = last;
    meter
}

fn pending() -> Ciphered {
    let (client_challenge, meter_challenge) = (CLIENT_CHALLENGE, METER_CHALLENGE);
    Ciphered::Pending { agreed: AGREED, key: DEDICATED, client_challenge, meter_challenge }
}

fn sender(meter: &Meter, key: Block) -> Sender {
    Sender { title: meter.han.title, key, authentication: AUTHENTICATION }
}

/// What an APDU of H comes to, by its explanation and by the plain text of its answer. The two agree about the number.
fn received(meter: &mut Meter, apdu: &[u8]) -> (String, Vec<u8>) {
    let head = Head { destination: 0x03, source: 0x27, control: 0x13 };
    let frame = frame::write(head, &[&[0xE6, 0xE6, 0x00], apdu].concat());
    let lent = Lent { guk: &GUK, authentication: &AUTHENTICATION, challenge: &[0; 8], room: 779 };
    let explanation = meter.explain(&frame, &lent);
    let outcome = meter.receive(&frame, &lent);
    assert_eq!((explanation.number, outcome.reply.is_empty()), (outcome.number, outcome.number == 7));
    (explanation.to_string(), outcome.sealed.map(|sealed| sealed.plain).unwrap_or_default())
}

/// Whether a request with this counter passes after this last accepted: its counter is then the last accepted. Else nothing
/// goes out, the association is dropped, and the last accepted stays.
pub fn passes(last: u32, counter: u32) -> bool {
    let associated = Ciphered::Associated { agreed: AGREED, key: DEDICATED };
    let mut meter = meter(associated.clone(), last);
    let apdu = sender(&meter, DEDICATED).close(0xD0, counter, &hex("C001C100080000010000FF0200"));
    let (explained, _) = received(&mut meter, &apdu);
    let after = (&explained[..], &meter.han.association, meter.han.accepted);
    match meter.han.association == associated {
        true => assert_eq!(after, ("0 none -", &associated, counter)),
        false => assert_eq!(after, ("7 counter-window -", &Ciphered::Absent, last)),
    }
    explained == "0 none -"
}

#[test]
fn steps() {
    assert_eq!([step(0, 0), step(0, 1), step(0, 4294967295)], [0, 1, 4294967295]);
    assert_eq!([step(4294967295, 0), step(4294967295, 4294967294), step(4294967290, 5)], [1, 4294967295, 11]);
    assert_eq!([step(200, 199), step(200, 200), step(0x8000_0000, 0)], [4294967295, 0, 0x8000_0000]);
}

#[test]
fn examples_of_document_02() {
    assert!(passes(4294967290, 5));
    assert!(!passes(4294967290, 4294967290));
}

#[test]
fn window_over_the_overflow() {
    assert_eq!(
        [0, 179, 180, 4294967295, 4294967294].map(|it| passes(4294967295, it)),
        [true, true, false, false, false]
    );
    assert_eq!([4294967295, 0, 178, 179].map(|it| passes(4294967294, it)), [true, true, true, false]);
    assert_eq!([1, 180, 181, 0, 4294967295].map(|it| passes(0, it)), [true, true, false, false, false]);
    assert_eq!([4294967295, 0].map(|it| passes(4294967115, it)), [true, false]);
    assert_eq!([4294967295, 0].map(|it| passes(4294967116, it)), [true, true]);
}

/// Of the counters from 400 before the last accepted to 400 behind it exactly the 180 behind it pass, and none far away.
#[test]
fn exactly_180_pass() {
    for last in LAST {
        let stretch = (0..=800).map(|i| last.wrapping_sub(400).wrapping_add(i));
        let passing: Vec<u32> = stretch.filter(|&counter| passes(last, counter)).collect();
        let window: Vec<u32> = (1..=180).map(|i| last.wrapping_add(i)).collect();
        assert_eq!(passing, window, "after {last}");
        let far = (9..32).flat_map(|bit| [last.wrapping_add(1 << bit), last.wrapping_sub(1 << bit), last ^ 1 << bit]);
        assert!(!far.into_iter().any(|counter| passes(last, counter)), "after {last}");
    }
}

/// Whether a proof with this inner counter is right in an envelope with this one; its envelope is in the window.
fn proves(last: u32, inner: u32, envelope: u32) -> bool {
    let mut meter = meter(pending(), last);
    let sender = sender(&meter, GUK);
    let head = hex("C301C1000F0000280004FF0101 0911");
    let apdu = sender.close(0xCB, envelope, &[head, sender.proof(inner, &METER_CHALLENGE)].concat());
    let (explained, answer) = received(&mut meter, &apdu);
    assert_eq!(meter.han.accepted, envelope);
    match &explained[..] {
        "0 none -" => assert_eq!(meter.han.association, Ciphered::Associated { agreed: AGREED, key: DEDICATED }),
        _ => assert_eq!(
            (&explained[..], &answer, &meter.han.association),
            ("13 wrong-proof -", &hex("C701C1FA00"), &Ciphered::Absent)
        ),
    }
    explained == "0 none -"
}

#[test]
fn proofs_over_the_overflow() {
    assert!(proves(4294967295, 0, 1));
    assert!(proves(4294967294, 4294967295, 0));
    assert!(proves(4294967200, 83, 84));
    assert_eq!([4294967295, 4294967294, 1, 2, 180].map(|inner| proves(4294967295, inner, 1)), [false; 5]);
    assert_eq!([4294967294, 0, 1].map(|inner| proves(4294967294, inner, 0)), [false; 3]);
    assert!(!proves(4294967295, 0, 0));
}

/// A proof is right where its inner step is 1 or more and below its envelope's.
#[test]
fn proofs_at_every_edge() {
    for last in LAST {
        for outer in [1, 2, 3, 96, 179, 180] {
            let edges = [0, 1, outer - 1, outer, outer + 1, 180, 181, 1 << 31, u32::MAX];
            for inner in edges {
                let [counter, envelope] = [inner, outer].map(|step| last.wrapping_add(step));
                let right = inner >= 1 && inner < outer;
                assert_eq!(proves(last, counter, envelope), right, "after {last}: steps {inner} and {outer}");
            }
        }
    }
}

/// An envelope of a proof outside the window drops the association, whatever stands in it.
#[test]
fn proofs_outside_the_window() {
    for last in LAST {
        for (inner, outer) in [(0, 0), (1, 0), (1, 181), (180, 181), (1, u32::MAX)] {
            let mut meter = meter(pending(), last);
            let sender = sender(&meter, GUK);
            let proof = sender.proof(last.wrapping_add(inner), &METER_CHALLENGE);
            let plain = [hex("C301C1000F0000280004FF0101 0911"), proof].concat();
            let (explained, _) = received(&mut meter, &sender.close(0xCB, last.wrapping_add(outer), &plain));
            assert_eq!(explained, "7 counter-window -", "after {last}: steps {inner} and {outer}");
            assert_eq!((meter.han.association, meter.han.accepted), (Ciphered::Absent, last));
        }
    }
}
