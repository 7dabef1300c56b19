//! Why a frame call is refused (change request Q-2): the tests of documents 01 and 02 in their order, each by a name and with a
//! condition of its own. The first that fails is the explanation; the frame call is not asked.

use crate::frame::{DATA, FLAG, HAN, LINK_DOWN, LINK_UP, LONGEST_FRAME, LONGEST_L, METER, REQUEST_LLC, VERIFICATION};
use crate::given::Given;
use crate::meter::Meter;
use crate::objects::{Selection, ROOM};
use crate::receive::{has, Lent, BLOCK_BIT, KNOWN_TAGS};
use crate::soundness::Clause::*;
use crate::soundness::TRANSFER_CLAUSES;
use crate::transfer::Transfer;
use std::fmt;

/// The refusal where a test fails, its name, and when it fails. What a test looks at is there once those before it passed.
type Test = (u8, &'static str, fn(&Given) -> bool);

/// "What goes out": a frame call tests 1, 2, 3, then the frame, then what it asks for.
pub const TESTS: [Test; 57] = [
    (1, "reply-room", |given| given.lent.room < LONGEST_FRAME),
    (2, "GUK-length", |given| given.lent.guk.len() != 16),
    (2, "AK-length", |given| given.lent.authentication.len() != 16),
    (2, "challenge-length", |given| given.lent.challenge.len() != 8),
    // "A state is sound when .."
    (3, "register-list", |given| given.is_unsound(&[RegisterCount, RegisterTwice, RegisterOwnName])),
    (3, "column-list", |given| given.is_unsound(&[ColumnCount, ColumnTwice, ColumnNotGiven])),
    (3, "period", |given| given.is_unsound(&[Period])),
    (3, "clock", |given| given.is_unsound(&[Clock])),
    (3, "row-clock", |given| given.is_unsound(&[RowClock])),
    (3, "row-count", |given| given.is_unsound(&[RowCount])),
    (3, "row-cells", |given| given.is_unsound(&[RowCells])),
    (3, "association-kind", |given| given.is_unsound(&[VerificationKind])),
    (3, "association-without-link", |given| given.is_unsound(&[VerificationWithoutLink, HanWithoutLink])),
    (3, "agreed-services", |given| given.is_unsound(&[VerificationServices, HanServices])),
    (3, "transfer", |given| given.is_unsound(&TRANSFER_CLAUSES)),
    // "The frame is tested in this order."
    (4, "short-frame", |given| given.bytes.len() < 9),
    (4, "flag-missing", |given| !(given.bytes.starts_with(&[FLAG]) && given.bytes.ends_with(&[FLAG]))),
    (4, "frame-type", |given| given.bytes[1] >> 4 != 0b1010),
    (4, "length-mismatch", |given| given.length() != given.bytes.len() - 2),
    (4, "length-8-or-9", |given| given.length() == 8 || given.length() == 9),
    (4, "wrong-FCS", |given| !given.is_checked(given.bytes.len() - 3)),
    (4, "wrong-HCS", |given| given.length() > 8 && !given.is_checked(6)),
    (4, "even-address", |given| given.destination() % 2 == 0 || given.source() % 2 == 0),
    (5, "FRMR-received", |given| given.control() == 0x87 || given.control() == 0x97),
    (8, "over-length", |given| given.length() > LONGEST_L),
    (9, "segment-bit", |given| given.bytes[1] & 0x08 != 0),
    (9, "PF-clear", |given| given.control() & 0x10 == 0),
    (9, "wrong-destination", |given| given.destination() != METER),
    (9, "wrong-source", |given| given.source() != VERIFICATION && given.source() != HAN),
    (9, "unknown-control", |given| ![LINK_UP, LINK_DOWN, DATA].contains(&given.control())),
    (9, "link-down-with-information", |given| given.control() == LINK_DOWN && !given.information().is_empty()),
    (9, "short-information", |given| given.control() == DATA && given.information().len() < 4),
    (9, "wrong-LLC", |given| given.control() == DATA && !given.information().starts_with(&REQUEST_LLC)),
    (10, "link-up-with-information", |given| given.control() == LINK_UP && !given.information().is_empty()),
    (10, "P5-holds-V", |given| given.control() == LINK_UP && given.source() == VERIFICATION && given.meter.p5),
    (10, "link-down-while-down", |given| given.control() == LINK_DOWN && !given.is_linked()),
    (10, "data-while-down", |given| given.control() == DATA && !given.is_linked()),
    // "The association", "The envelope and its counters"
    (12, "unknown-tag", |given| given.tag().is_some_and(|tag| !KNOWN_TAGS.contains(&tag))),
    (12, "tag-not-permitted", |given| given.tag().is_some_and(|tag| !given.permitted().contains(&tag))),
    (12, "bit-not-agreed", |given| !has(given.agreed(), given.needed_bit())),
    (11, "AARQ-not-accepted", |given| given.tag() == Some(0x60) && !given.is_aarq()),
    (6, "envelope-shape", |given| given.is_sealed() && given.envelope().is_none()),
    (6, "envelope-tag", |given| given.is_sealed() && given.opened().is_none()),
    (7, "counter-window", |given| given.envelope().is_some_and(|it| !given.meter.is_in_window(it.counter))),
    (12, "malformed-APDU", |given| given.is_malformed()),
    (12, "not-the-challenge", |given| given.tag() == Some(0xCB) && !given.is_to_the_challenge()),
    (13, "wrong-proof", |given| given.tag() == Some(0xCB) && !given.is_proof()),
    // "Refusal 13 codes, in order"; a range is Q-1's.
    (13, "name-unknown", |given| given.target().is_some() && given.object().is_none()),
    (13, "class-wrong", |given| given.object_fails(|object, target| object.class() != target.class)),
    (13, "not-served", |given| given.object_fails(|object, target| !given.is_served(object, target.number))),
    (13, "parameter-shape", |given| given.target().is_some() && !given.is_parameter()),
    (13, "entries-wrong", |given| {
        matches!(given.selection(), Some(Selection::Entries { .. })) && given.rows().is_none()
    }),
    (13, "range-wrong", |given| matches!(given.selection(), Some(Selection::Range { .. })) && given.rows().is_none()),
    (13, "answer-too-long", |given| {
        !has(given.agreed(), BLOCK_BIT) && given.data().is_some_and(|data| data.bytes().len() > ROOM)
    }),
    // "Refusals of a numbered request .. in this order"
    (13, "transfer-ended", |given| given.next().is_some() && given.meter.transfer == Transfer::Ended),
    (13, "no-transfer", |given| given.next().is_some() && given.meter.transfer == Transfer::Absent),
    (13, "block-number", |given| {
        let Transfer::Running { block, .. } = given.meter.transfer else { return false };
        given.next().is_some_and(|next| next.number != block)
    }),
];

/// The number of a frame call, the test that fails, and for refusals 4 and 9 the first byte of the failing field.
#[derive(Clone, Copy, Debug, PartialEq)]
pub struct Explanation {
    pub number: u8,
    pub name: &'static str,
    pub place: Option<usize>,
}

/// Where no test fails.
pub const NONE: &str = "none";

impl fmt::Display for Explanation {
    fn fmt(&self, line: &mut fmt::Formatter) -> fmt::Result {
        let place = self.place.map_or("-".into(), |place| place.to_string());
        write!(line, "{} {} {place}", self.number, self.name)
    }
}

impl Meter {
    /// Why this frame would be refused. The meter stays as it is.
    pub fn explain(&self, bytes: &[u8], lent: &Lent) -> Explanation {
        let given = Given::new(self, bytes, lent);
        match TESTS.iter().find(|(_, _, fails)| fails(&given)) {
            Some(&(number, name, _)) => Explanation { number, name, place: place(name, bytes) },
            None => Explanation { number: 0, name: NONE, place: None },
        }
    }
}

/// Where the field begins that fails a test of refusal 4 or 9, counted from 0; of two such fields the first.
fn place(name: &str, bytes: &[u8]) -> Option<usize> {
    Some(match name {
        "short-frame" => 0,
        "flag-missing" if bytes[0] != FLAG => 0,
        "flag-missing" => bytes.len() - 1,
        "frame-type" | "length-mismatch" | "length-8-or-9" | "segment-bit" => 1,
        "even-address" if bytes[3] % 2 == 0 => 3,
        "wrong-destination" => 3,
        "even-address" | "wrong-source" => 4,
        "PF-clear" | "unknown-control" => 5,
        "wrong-HCS" => 6,
        "wrong-FCS" => bytes.len() - 3,
        "link-down-with-information" | "short-information" | "wrong-LLC" => 8,
        _ => return None,
    })
}
