//! Why a frame is refused (change request Q-2): the example of document 02, a place for each field of a frame, and a whole
//! session in which the number of each explanation is held to the frame call, with every bit of every frame changed.

use crate::{array, hex};
use reference::check::sent_check;
use reference::explanation::{Explanation, TESTS};
use reference::frame::{self, Head};
use reference::meter::Meter;
use reference::receive::Lent;
use std::collections::BTreeSet;

const GUK: &str = "000102030405060708090A0B0C0D0E0F";
const AUTHENTICATION: &str = "D0D1D2D3D4D5D6D7D8D9DADBDCDDDEDF";
const CHALLENGE: &str = "503677524A323146";

fn new_meter() -> Meter {
    let device = array("54504331303730323031303030303031");
    Meter::new(device, array("4D4D4D0000BC614E"), array("5645520000000000"), array("48414E0000000000"))
}

/// The explanation of a frame, whose number is the frame call's; the meter is then the one after the call.
fn explained(meter: &mut Meter, frame: &[u8]) -> Explanation {
    let (guk, authentication, challenge) = (hex(GUK), hex(AUTHENTICATION), hex(CHALLENGE));
    let lent = Lent { guk: &guk, authentication: &authentication, challenge: &challenge, room: 779 };
    let explanation = meter.explain(frame, &lent);
    assert_eq!(explanation.number, meter.receive(frame, &lent).number, "{explanation}");
    explanation
}

/// The line that a new meter explains a frame by.
fn line(frame: &str) -> String {
    explained(&mut new_meter(), &hex(frame)).to_string()
}

#[test]
fn names() {
    let names: BTreeSet<&str> = TESTS.iter().map(|&(_, name, _)| name).collect();
    assert_eq!(names.len(), 57);
    assert!(names.iter().all(|name| name.bytes().all(|byte| byte.is_ascii_alphanumeric() || byte == b'-')));
}

#[test]
fn example_of_document_02() {
    assert_eq!(line("7EA0070321930F007E"), "4 wrong-FCS 6");
    assert_eq!(line("7EA0070321930F017E"), "0 none -");
}

#[test]
fn places_of_no_frame() {
    assert_eq!(line(""), "4 short-frame 0");
    assert_eq!(line("7EA0070321930F7E"), "4 short-frame 0");
    assert_eq!(line("00A0070321930F017E"), "4 flag-missing 0");
    assert_eq!(line("7EA0070321930F0100"), "4 flag-missing 8");
    assert_eq!(line("00A0070321930F0100"), "4 flag-missing 0");
    assert_eq!(line("7EB0070321930F017E"), "4 frame-type 1");
    assert_eq!(line("7EA0080321930F017E"), "4 length-mismatch 1");
    assert_eq!(line("7EA0080321930F01007E"), "4 length-8-or-9 1");
    assert_eq!(line("7EA0090321930F0100007E"), "4 length-8-or-9 1");
    assert_eq!(line("7EA00A032193808A00CCC77E"), "4 wrong-FCS 9");
    assert_eq!(line("7EA00A032193808B00CCC67E"), "4 wrong-FCS 9");
}

/// The line for a frame with right checks.
fn checked(destination: u8, source: u8, control: u8, information: &[u8]) -> String {
    let frame = frame::write(Head { destination, source, control }, information);
    explained(&mut new_meter(), &frame).to_string()
}

#[test]
fn places_of_fields() {
    assert_eq!(checked(0x02, 0x20, 0x97, &[]), "4 even-address 3");
    assert_eq!(checked(0x03, 0x20, 0x97, &[]), "4 even-address 4");
    assert_eq!(checked(0x05, 0x25, 0x97, &[0; 769]), "5 FRMR-received -");
    assert_eq!(checked(0x05, 0x25, 0x00, &[0; 769]), "8 over-length -");
    assert_eq!(checked(0x05, 0x25, 0x00, &[]), "9 PF-clear 5");
    assert_eq!(checked(0x05, 0x25, 0x10, &[]), "9 wrong-destination 3");
    assert_eq!(checked(0x03, 0x25, 0x10, &[]), "9 wrong-source 4");
    assert_eq!(checked(0x03, 0x27, 0x10, &[]), "9 unknown-control 5");
    assert_eq!(checked(0x03, 0x27, 0x53, &[0]), "9 link-down-with-information 8");
    assert_eq!(checked(0x03, 0x27, 0x13, &[]), "9 short-information 8");
    assert_eq!(checked(0x03, 0x27, 0x13, &[0; 3]), "9 short-information 8");
    assert_eq!(checked(0x03, 0x27, 0x13, &[0xE6, 0xE7, 0, 0]), "9 wrong-LLC 8");
    assert_eq!(checked(0x03, 0x21, 0x93, &[0]), "10 link-up-with-information -");
    assert_eq!(checked(0x03, 0x21, 0x53, &[]), "10 link-down-while-down -");
    assert_eq!(checked(0x03, 0x21, 0x13, &[0xE6, 0xE6, 0, 0]), "10 data-while-down -");
}

/// The frame with this bit changed, as it then is and with its checks made right again.
fn changed(frame: &[u8], bit: usize) -> [Vec<u8>; 2] {
    let mut broken = frame.to_vec();
    broken[bit / 8] ^= 1 << (bit % 8);
    let mut repaired = broken.clone();
    let checks = if frame.len() > 11 { vec![6, frame.len() - 3] } else { vec![frame.len() - 3] };
    for check in checks {
        let right = sent_check(&repaired[1..check]);
        repaired[check..check + 2].copy_from_slice(&right);
    }
    [broken, repaired]
}

/// The session of H, as `session` has it, up to its first GET and with a release.
const SESSION: [&str; 5] = [
    "7EA007032793DF557E",
    "7EA0740327135FAEE6E6006066A109060760857405080103A60A040848414E00000000008A0207808B0760857405080205AC0A80084B353669\
     56616759BE340432213030000000C88C04859644927B02E23064814B8421ED8E2D9CE4B6A70D387519FC2B75A4DB2F8D092EF8D811B65237\
     73E2CB1D7E",
    "7EA03F032713FD78E6E600CB3130000000CA4687EF5E347C0C0994D99913E4A68BB16D30887D76F3F00817D9C884EF9E831397E7FF16FD1F\
     0273E2194C5929177E",
    "7EA02C032713919EE6E600D01E30000000CBB6DE6918AAAFC216E4A79F388CFE4BED21C5F7DAA9DFF0FAC3E6197E",
    "7EA007032753D3937E",
];

#[test]
fn session_with_bits_changed() {
    let mut meter = new_meter();
    let mut names = BTreeSet::new();
    for frame in SESSION.map(hex) {
        for other in (0..frame.len() * 8).flat_map(|bit| changed(&frame, bit)) {
            names.insert(explained(&mut meter.clone(), &other).name);
        }
        assert_eq!(explained(&mut meter, &frame).to_string(), "0 none -");
    }
    let met =
        ["wrong-source", "AARQ-not-accepted", "envelope-shape", "envelope-tag", "tag-not-permitted", "unknown-tag"];
    assert!(met.iter().all(|name| names.contains(name)), "{names:?}");
    let again = explained(&mut meter, &hex(SESSION[3]));
    assert_eq!(again.to_string(), "10 data-while-down -");
}
