//! Ranges of rows by date, drawn around the clocks that a meter keeps: right ones, with ends wrong or reversed, and descriptors
//! of another shape.

use crate::damage::changed;
use crate::random::Random;
use crate::states::{broken, clock, shifted};
use reference::bytes::part;
use reference::clock::{moment, Clock};
use reference::meter::{self, Meter};
use reference::request::Name;

const FIRST: Clock = [0x07, 0xD0, 1, 1, 0xFF, 0, 0, 0, 0xFF, 0x80, 0, 0];
const LAST: Clock = [0x08, 0x33, 12, 31, 0xFF, 23, 59, 59, 0xFF, 0x80, 0, 0];

/// Places in a descriptor, each with another kind of the same length.
const OTHER_KINDS: [(usize, u8); 9] =
    [(0, 0x01), (2, 0x01), (7, 0x0A), (15, 0x11), (15, 0x16), (20, 0x0A), (20, 0x19), (34, 0x0A), (48, 0x02)];

/// The descriptor of a range; some four in ten are wrong in something.
pub fn range(random: &mut Random, meter: &Meter) -> Vec<u8> {
    let (mut from, mut to) = ends(random, meter);
    match random.below(24) {
        0 => (from, to) = (to, from),
        1 => to = from,
        2 => from = broken(random, from),
        3 => to = broken(random, to),
        _ => {}
    }
    match random.below(10) {
        0..=1 => misshaped(random, &from, &to),
        2 => changed(random, &descriptor(&column(8, meter::CLOCK, 2), &from, &to, &[0x01, 0x00])),
        _ => descriptor(&column(8, meter::CLOCK, 2), &from, &to, &[0x01, 0x00]),
    }
}

/// From and to: on each side of a kept clock, from one kept clock to another, around all of them, or anywhere.
pub fn ends(random: &mut Random, meter: &Meter) -> (Clock, Clock) {
    let (one, other) = (kept(random, meter), kept(random, meter));
    let (early, late) = if moment(&one) <= moment(&other) { (one, other) } else { (other, one) };
    let clocks = || meter.rows.iter().map(|row| row.clock);
    let any = clock(random, meter.period);
    match random.below(12) {
        0..=3 => (beside(random, &early), beside(random, &late)),
        4 => (shifted(&one, -1), one),
        5 => (one, shifted(&one, 1)),
        6 => (early, shifted(&early, random.pick(&[1, 60, 900, 3600, 86400]))),
        7..=9 => match (clocks().min_by_key(moment), clocks().max_by_key(moment)) {
            (Some(first), Some(last)) => (shifted(&first, -1), last),
            _ => (FIRST, LAST),
        },
        10 => random.pick(&[(FIRST, LAST), (FIRST, one), (one, LAST), (FIRST, any)]),
        _ => (any, beside(random, &late)),
    }
}

/// A row's clock, or the meter's own.
fn kept(random: &mut Random, meter: &Meter) -> Clock {
    match meter.rows.len() {
        0 => meter.clock,
        count => meter.rows[random.below(count)].clock,
    }
}

/// A clock, or one that is a second or some more beside it.
fn beside(random: &mut Random, clock: &Clock) -> Clock {
    let far = random.below(4000) as i64;
    shifted(clock, random.pick(&[0, 0, 0, -1, 1, far, -far]))
}

/// A column by its class, name and attribute, as the restricting object and picked columns have it.
fn column(class: u8, name: Name, attribute: u8) -> Vec<u8> {
    [&[0x02, 0x04, 0x12, 0x00, class, 0x09, 0x06], &name[..], &[0x0F, attribute, 0x12, 0x00, 0x00]].concat()
}

fn descriptor(object: &[u8], from: &[u8], to: &[u8], picked: &[u8]) -> Vec<u8> {
    [&[0x02, 0x04], object, &part(0x09, from), &part(0x09, to), picked].concat()
}

/// One member another than it should be, most times still one whole value; often an end is wrong, too.
fn misshaped(random: &mut Random, from: &Clock, to: &Clock) -> Vec<u8> {
    let wrong = broken(random, *from);
    let (from, to) = random.pick(&[(*from, *to), (*from, *to), (wrong, *to), (*to, wrong)]);
    let object = column(8, meter::CLOCK, 2);
    let none = [0x01, 0x00];
    match random.below(8) {
        0..=1 => descriptor(&other_column(random), &from, &to, &none),
        2 => descriptor(&object, &from[..11], &[&to[..], &[0x00]].concat(), &none),
        3 => descriptor(&object, &from, &to[..11], &none),
        4 => {
            let column = [&[0x01, 0x01], &object[..]].concat();
            let picked = random.pick(&[vec![0x02, 0x00], vec![0x00], vec![0x01, 0x01, 0x00], column]);
            descriptor(&object, &from, &to, &picked)
        }
        5..=6 => {
            let mut bytes = descriptor(&object, &from, &to, &none);
            let (place, kind) = random.pick(&OTHER_KINDS);
            bytes[place] = kind;
            bytes
        }
        _ => {
            let (count, picked): (u8, &[u8]) = random.pick(&[(3, &[]), (5, &[0x01, 0x00, 0x00])]);
            let mut bytes = descriptor(&object, &from, &to, picked);
            bytes[1] = count;
            bytes
        }
    }
}

/// A restricting object that is not the clock's column: a class, a name, an attribute or an index beside it, or none.
fn other_column(random: &mut Random) -> Vec<u8> {
    let (class, attribute) = (random.pick(&[0, 1, 3, 7, 9]), random.pick(&[0, 1, 3]));
    let name = random.pick(&[meter::TIME, meter::DATE, meter::PROFILE, meter::RECORD_NUMBER]);
    match random.below(5) {
        0 => column(class, meter::CLOCK, 2),
        1 => column(8, name, 2),
        2 => column(8, meter::CLOCK, attribute),
        3 => {
            let mut column = column(8, meter::CLOCK, 2);
            column[random.pick(&[3, 16, 17])] ^= random.pick(&[1, 0x80]);
            column
        }
        _ => vec![0x00],
    }
}
