//! The fourteen marked examples of document 01 (the first stands with the ciphers), and refusals around them.

use crate::counters::passes;
use crate::{array, hex};
use reference::clock::{is_period, is_valid};
use reference::frame::{self, Head};
use reference::meter::{Meter, Row};
use reference::receive::{Lent, Outcome};
use reference::value::Value;

const GUK: [u8; 16] = [0x11; 16];
const AUTHENTICATION: [u8; 16] = [0x22; 16];

fn new_meter() -> Meter {
    Meter::new([0x54; 16], [1; 8], [2; 8], [3; 8])
}

fn receive(meter: &mut Meter, frame: &[u8]) -> Outcome {
    meter.receive(frame, &Lent { guk: &GUK, authentication: &AUTHENTICATION, challenge: &[0; 8], room: 779 })
}

#[test]
fn links_of_v() {
    let mut meter = new_meter();
    let down = receive(&mut meter, &hex("7EA007032153 03C77E"));
    assert_eq!((down.number, down.reply), (10, hex("7EA00721031F6BE97E")));
    let up = receive(&mut meter, &hex("7EA0070321930F017E"));
    assert_eq!((up.number, up.reply), (0, hex("7EA007210373 01407E")));
    let broken = receive(&mut meter, &hex("7EA0070321930F007E"));
    assert_eq!((broken.number, broken.reply), (4, vec![]));
    assert!(meter.verification.linked);
}

/// What a frame with these addresses, this control and this information answers in a new meter.
fn answered(source: u8, control: u8, information: &[u8]) -> (u8, Vec<u8>) {
    let frame = frame::write(Head { destination: 0x03, source, control }, information);
    let outcome = receive(&mut new_meter(), &frame);
    (outcome.number, outcome.reply)
}

#[test]
fn rejected_frames() {
    assert_eq!(answered(0x21, 0x93, &[0]), (10, hex("7EA00721031F6BE97E")));
    assert_eq!(answered(0x21, 0x10, &[]), (9, hex("7EA00C2103973E21100001 6B5B7E")));
    assert_eq!(answered(0x27, 0x13, &[]), (9, hex("7EA00C270397E7F71300010FB47E")));
    assert_eq!(answered(0x25, 0x93, &[]), (9, hex("7EA00C2503975F42930001E3B87E")));
    assert_eq!(answered(0x21, 0x13, &[0; 769]), (8, hex("7EA00C2103973E21130004A2E37E")));
    assert_eq!(answered(0x27, 0x13, &[0; 769]), (8, hex("7EA00C270397E7F7130004A2E37E")));
    assert_eq!(answered(0x27, 0x97, &[0; 769]), (5, vec![]));
}

#[test]
fn window_of_180() {
    assert_eq!([201, 380, 200, 381].map(|counter| passes(200, counter)), [true, true, false, false]);
}

/// The record numbers that a selection of a profile with fifteen rows gives, or its code.
fn selected(from: u32, to: u32) -> Result<Vec<u16>, u8> {
    let mut meter = new_meter();
    meter.rows = (1..=15).map(|number| Row { number, clock: meter.clock, cells: vec![] }).collect();
    let descriptor =
        [&hex("020406")[..], &from.to_be_bytes(), &[0x06], &to.to_be_bytes(), &hex("120001120000")].concat();
    let request = [&hex("C001C100070000150006FF020102")[..], &descriptor].concat();
    let get = reference::request::read_get(&request).unwrap();
    let Value::Array(rows) = reference::objects::ciphered_read(&meter, &get, true)? else { panic!("no array") };
    Ok(rows.iter().map(|row| u16::from_be_bytes([row.bytes()[3], row.bytes()[4]])).collect())
}

#[test]
fn entries_of_fifteen_rows() {
    assert_eq!(selected(1, 0), Ok((1..=15).collect()));
    assert_eq!(selected(2, 16), Ok((2..=15).collect()));
    assert_eq!(selected(0, 10), Err(13));
    assert_eq!(selected(16, 0), Err(13));
    assert_eq!(selected(5, 3), Err(13));
}

#[test]
fn record_number_after_65535() {
    let mut meter = new_meter();
    meter.record_number = 65535;
    assert_eq!(meter.tick(array("07E10101FF000000FF800000")), 0);
    assert_eq!((meter.record_number, meter.rows.len(), meter.rows[0].number), (0, 1, 0));
}

#[test]
fn sixteen_periods() {
    let permitted: Vec<u32> = (0..=7200).filter(|&period| is_period(period)).collect();
    assert_eq!(permitted, [30, 60, 90, 120, 150, 180, 240, 300, 360, 450, 600, 720, 900, 1200, 1800, 3600]);
}

#[test]
fn clocks() {
    let valid = |text| is_valid(&array(text));
    assert!(valid("07E10101FF000000FF800000"));
    assert!(valid("07D0021DFF173B3BFF800000"));
    assert!(!valid("07D1021DFF000000FF800000"));
    assert!(!valid("0834 0101FF000000FF800000"));
    assert!(!valid("07E10101FF180000FF800000"));
    assert!(!valid("07E1010101000000FF800000"));
}

#[test]
fn depth_of_values() {
    assert!(Value::whole(&hex("0101010101010F05")).is_some());
    assert!(Value::whole(&hex("01010101010101010F05")).is_none());
    assert!(Value::whole(&hex("0101010101010100")).is_some());
    assert!(Value::whole(&hex("09810101")).is_none());
    assert!(Value::whole(&hex("0000")).is_none());
}
