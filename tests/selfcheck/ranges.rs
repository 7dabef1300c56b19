//! Rows by date (change request Q-1; the P2 agreement, 4.3.25): its example and its first table, clocks that go back, the
//! ends of a range, and the codes in their order.

use crate::{array, hex};
use reference::clock::{moment, Clock};
use reference::meter::{Meter, Row};
use reference::objects::ciphered_read;
use reference::request::read_get;
use reference::value::Value;

const GET_ROWS: &str = "C001C100070000150006FF0201";
const RANGE: &str = "01";
const OBJECT: &str = "0204 120008 0906 0000010000FF 0F02 120000";

/// A second of the first day of 2017.
fn at(hour: u8, minute: u8, second: u8) -> Clock {
    [0x07, 0xE1, 1, 1, 0xFF, hour, minute, second, 0xFF, 0x80, 0, 0]
}

/// A meter with rows of these clocks, the newest first; the oldest has record number 1.
fn meter(clocks: &[Clock]) -> Meter {
    let mut meter = Meter::new([0x54; 16], [1; 8], [2; 8], [3; 8]);
    let row = |(number, &clock): (u16, &Clock)| Row { number, clock, cells: vec![] };
    meter.rows = (1..=clocks.len() as u16).rev().zip(clocks).map(row).collect();
    meter
}

/// The record numbers that a GET with these bytes of a selector gives, or its code.
fn read(meter: &Meter, selector: &[u8]) -> Result<Vec<u16>, u8> {
    let get = read_get(&[&hex(GET_ROWS)[..], selector].concat()).expect("the request is well formed");
    let Value::Array(rows) = ciphered_read(meter, &get, true)? else { panic!("no array") };
    Ok(rows.iter().map(|row| u16::from_be_bytes([row.bytes()[3], row.bytes()[4]])).collect())
}

/// The bytes of a range's selector: its number, object, from, to and picked columns.
fn selector(number: &str, object: &str, from: &[u8], to: &[u8], picked: &str) -> Vec<u8> {
    let string = |bytes: &[u8]| [&[0x09, bytes.len() as u8], bytes].concat();
    [hex(number), hex("0204"), hex(object), string(from), string(to), hex(picked)].concat()
}

fn range(meter: &Meter, from: Clock, to: Clock) -> Result<Vec<u16>, u8> {
    let selector = selector(RANGE, OBJECT, &from, &to, "0100");
    assert_eq!(selector.len(), 1 + 50);
    read(meter, &selector)
}

#[test]
fn hour_of_four_quarters() {
    let clocks = [at(11, 15, 0), at(11, 0, 0), at(10, 45, 0), at(10, 30, 0), at(10, 15, 0), at(10, 0, 0), at(9, 45, 0)];
    assert_eq!(range(&meter(&clocks), at(10, 0, 0), at(11, 0, 0)), Ok(vec![6, 5, 4, 3]));
}

#[test]
fn first_table_of_the_agreement() {
    let mut meter = meter(&[at(1, 0, 0), at(0, 45, 0), at(0, 30, 0), at(0, 15, 0), at(0, 0, 0)]);
    meter.rows.iter_mut().for_each(|row| row.number += 4995);
    assert_eq!(range(&meter, at(0, 0, 0), at(1, 0, 0)), Ok(vec![5000, 4999, 4998, 4997]));
    assert_eq!(range(&meter, at(0, 15, 0), at(0, 44, 59)), Ok(vec![4998]));
    assert_eq!(range(&meter, at(1, 0, 0), at(2, 0, 0)), Ok(vec![]));
}

#[test]
fn clocks_that_go_back() {
    let clocks = [at(0, 30, 0), at(0, 15, 0), at(0, 45, 0), at(0, 30, 0)];
    assert_eq!(range(&meter(&clocks), at(0, 15, 0), at(0, 30, 0)), Ok(vec![4, 1]));
    let twice = [&[at(0, 30, 0)], &clocks[..]].concat();
    assert_eq!(range(&meter(&twice), at(0, 15, 0), at(0, 30, 0)), Ok(vec![5, 4, 1]));
    assert_eq!(range(&meter(&twice), at(0, 0, 0), at(23, 59, 59)), Ok(vec![5, 4, 3, 2, 1]));
}

#[test]
fn ends_of_a_range() {
    let one = meter(&[at(12, 0, 0)]);
    assert_eq!(range(&one, at(11, 59, 59), at(12, 0, 0)), Ok(vec![1]));
    assert_eq!(range(&one, at(12, 0, 0), at(12, 0, 1)), Ok(vec![]));
    assert_eq!(range(&one, at(11, 59, 58), at(11, 59, 59)), Ok(vec![]));
    assert_eq!(range(&one, at(12, 0, 0), at(12, 0, 0)), Err(13));
    assert_eq!(range(&one, at(12, 0, 1), at(12, 0, 0)), Err(13));
    assert_eq!(range(&meter(&[]), at(12, 0, 0), at(12, 0, 1)), Ok(vec![]));
    assert_eq!(range(&meter(&[]), at(12, 0, 0), at(12, 0, 0)), Err(13));
}

#[test]
fn shape_before_clocks() {
    let (meter, noon, later) = (meter(&[at(12, 30, 0)]), at(12, 0, 0), at(13, 0, 0));
    let no_clock = at(24, 0, 0);
    assert_eq!(range(&meter, no_clock, later), Err(13));
    assert_eq!(range(&meter, noon, no_clock), Err(13));
    let null = "00";
    let class_1 = OBJECT.replace("120008", "120001");
    for (object, picked) in [(null, "0100"), (&class_1, "0100"), (OBJECT, "00"), (OBJECT, "0200"), (OBJECT, "010100")] {
        for from in [noon, no_clock] {
            assert_eq!(read(&meter, &selector(RANGE, object, &from, &later, picked)), Err(12));
        }
    }
    assert_eq!(read(&meter, &selector(RANGE, OBJECT, &no_clock, &later[..11], "0100")), Err(12));
    for number in ["00", "02", "03", "FF"] {
        assert_eq!(read(&meter, &selector(number, OBJECT, &noon, &later, "0100")), Err(12));
    }
    assert_eq!(read(&meter, &hex("01 0204 0600000001 0600000000 120001 120000")), Err(12));
}

/// Seconds of the usual count of time, which begins in 1970.
#[test]
fn moments() {
    let since_1970 = |clock: &str| moment(&array(clock)) + 946_684_800;
    assert_eq!(since_1970("07E10101FF000000FF800000"), 1_483_228_800);
    assert_eq!(since_1970("07D0021DFF173B3BFF800000"), 951_868_799);
    assert_eq!(since_1970("07D00301FF000000FF800000"), 951_868_800);
    assert_eq!(since_1970("0833 0C1FFF173B3BFF800000"), 4_102_444_799);
}
