//! States handed in: sound ones with everything that a meter can hold, unsound ones by each clause, and buffers that are
//! no state; transfers among them. Names come from a small pool, so that lists meet.

use crate::random::Random;
use crate::ranges::ends;
use reference::clock::{days_in, is_due, moment, Clock};
use reference::image::{self, SIZE};
use reference::layout;
use reference::meter::{self, Ciphered, Han, Meter, Plain, Register, Row, Verification, MOST_ROWS, OWN_NAMES};
use reference::objects::{Selection, WHOLE_ROWS};
use reference::request::Name;
use reference::soundness::{agreed, Clause, MOST_COLUMNS, MOST_REGISTERS, OFFERED_CIPHERED, OFFERED_PLAIN};
use reference::transfer::Transfer;

pub const PERIODS: [u32; 16] = [30, 60, 90, 120, 150, 180, 240, 300, 360, 450, 600, 720, 900, 1200, 1800, 3600];

/// Names that registers may bear, some of them one step beside a name of the meter's own.
pub fn name(random: &mut Random) -> Name {
    match random.below(8) {
        0 => random.pick(&[[0, 0, 40, 0, 0, 255], [0, 0, 1, 0, 1, 255], [0, 0, 21, 0, 6, 254], [1, 0, 0, 9, 3, 255]]),
        _ => [1, 0, random.between(1, 24) as u8, 8, 0, 255],
    }
}

fn distinct_names(random: &mut Random, count: usize) -> Vec<Name> {
    let mut names: Vec<Name> = vec![];
    while names.len() < count {
        let next = name(random);
        if !names.contains(&next) {
            names.push(next);
        }
    }
    names
}

pub fn register(random: &mut Random, name: Name) -> Register {
    let any = random_value(random);
    let value = random.pick(&[0, 1, u32::MAX, any, any]);
    Register { name, right: random.percent(75), scaler: random.byte(), unit: random.byte(), value }
}

fn random_value(random: &mut Random) -> u32 {
    random.number32() >> random.below(32)
}

pub fn registers(random: &mut Random, count: usize) -> Vec<Register> {
    distinct_names(random, count).into_iter().map(|name| register(random, name)).collect()
}

/// Some of the registers' names, in any order.
pub fn columns(random: &mut Random, registers: &[Register], count: usize) -> Vec<Name> {
    let mut left: Vec<Name> = registers.iter().map(|register| register.name).collect();
    (0..count.min(left.len())).map(|_| left.swap_remove(random.below(left.len()))).collect()
}

/// A valid clock; half of them are due by this period.
pub fn clock(random: &mut Random, period: u32) -> Clock {
    let year = random.between(2000, 2099) as u16;
    let month = random.between(1, 12) as u8;
    let last_day = days_in(year, month);
    let day = random.between(1, last_day.into()) as u8;
    let day = random.pick(&[1, last_day, day]);
    let second = match random.percent(50) && period != 0 && period <= 3600 {
        true => random.below(3600 / period as usize) * period as usize,
        false => random.below(3600),
    };
    let [high, low] = year.to_be_bytes();
    let hour = random.below(24) as u8;
    [high, low, month, day, 0xFF, hour, (second / 60) as u8, (second % 60) as u8, 0xFF, 0x80, 0, 0]
}

/// The first second after the last year that a clock may have.
const END_OF_CLOCKS: u64 = 36525 * 86400;

/// The clock that is so many seconds later than this one; it stays within the years that a clock may have.
pub fn shifted(clock: &Clock, seconds: i64) -> Clock {
    let shifted = moment(clock).saturating_add_signed(seconds).min(END_OF_CLOCKS - 1);
    let (mut days, second) = (shifted / 86400, shifted % 86400);
    let (mut year, mut month) = (2000, 1);
    while days >= u64::from(days_in(year, month)) {
        days -= u64::from(days_in(year, month));
        (year, month) = if month == 12 { (year + 1, 1) } else { (year, month + 1) };
    }
    let [high, low] = year.to_be_bytes();
    let [hour, minute, second] = [second / 3600, second / 60 % 60, second % 60].map(|part| part as u8);
    [high, low, month, days as u8 + 1, 0xFF, hour, minute, second, 0xFF, 0x80, 0, 0]
}

/// A clock that is wrong in one field.
pub fn wrong_clock(random: &mut Random) -> Clock {
    let clock = clock(random, 60);
    broken(random, clock)
}

/// This clock with one field wrong.
pub fn broken(random: &mut Random, mut clock: Clock) -> Clock {
    let leap_day = 29 + u8::from(clock[1] % 4 == 0);
    let (place, bytes) = match random.below(12) {
        0 => (0, vec![0x07, 0xCF]),
        1 => (0, vec![0x08, 0x34]),
        2 => (2, vec![random.pick(&[0, 13, 0xFF])]),
        3 => (3, vec![random.pick(&[0, 32, 0xFF])]),
        4 => (2, vec![2, leap_day]),
        5 => (2, vec![random.pick(&[4, 6, 9, 11]), 31]),
        6 => (5, vec![random.pick(&[24, 0xFF])]),
        7 => (6, vec![random.pick(&[60, 0xFF])]),
        8 => (7, vec![random.pick(&[60, 0xFF])]),
        9 => (random.pick(&[4, 8]), vec![random.pick(&[0, 1, 0xFE])]),
        10 => (random.pick(&[9, 10]), vec![random.pick(&[0x81, 0x7F, 0x01])]),
        _ => (11, vec![random.pick(&[1, 0x80, 0xFF])]),
    };
    clock[place..place + bytes.len()].copy_from_slice(&bytes);
    clock
}

pub fn wrong_period(random: &mut Random) -> u32 {
    let any = random.number32();
    random.pick(&[
        0,
        1,
        10,
        15,
        20,
        29,
        31,
        40,
        45,
        50,
        61,
        80,
        100,
        200,
        210,
        270,
        400,
        540,
        1350,
        3599,
        7200,
        u32::MAX,
        1 << 31,
        65536 + 60,
        any | 1,
    ])
}

/// A counter, most times near one of the ends.
pub fn counter(random: &mut Random) -> u32 {
    let near = random.below(400) as u32;
    let any = random_value(random);
    let close = beside_overflow(random);
    random.pick(&[near, u32::MAX - near, close, close, any])
}

/// A counter from which the overflow is within the window, or one step back.
fn beside_overflow(random: &mut Random) -> u32 {
    let near = random.below(180) as u32;
    random.pick(&[0, u32::MAX, u32::MAX - near % 4, u32::MAX - near])
}

/// Whether a window's steps from this counter, forward or back, meet an end.
pub fn is_near_end(counter: u32) -> bool {
    !(180..=u32::MAX - 180).contains(&counter)
}

fn services(random: &mut Random, offered: [u8; 3]) -> [u8; 3] {
    match random.below(20) {
        0..=12 => offered,
        13..=14 => agreed([0, 0, 0xFF], offered),
        _ => agreed(random.array(), offered),
    }
}

/// So many rows, the first of them with this number.
fn rows(random: &mut Random, period: u32, number: u16, columns: usize, count: usize) -> Vec<Row> {
    let clocks = row_clocks(random, period, count);
    let mut cells = || (0..columns).map(|_| random_value(random)).collect();
    let numbered = (0..count as u16).map(|i| number.wrapping_sub(i)).zip(clocks);
    numbered.map(|(number, clock)| Row { number, clock, cells: cells() }).collect()
}

/// Clocks of rows, the newest first: any, or a period apart, where it may be that the clock was set back on the way or that
/// a second came twice.
fn row_clocks(random: &mut Random, period: u32, count: usize) -> Vec<Clock> {
    let kind = random.below(10);
    let period = i64::from(period);
    let mut clocks = vec![];
    let mut next = clock(random, period as u32);
    for _ in 0..count {
        clocks.push(next);
        next = match kind {
            0..=2 => clock(random, period as u32),
            3..=5 => shifted(&next, -period),
            _ => shifted(&next, random.pick(&[-period, -period, -period, 0, period, 3 * period, -1, 1])),
        };
    }
    clocks
}

/// A sound meter in any state; H is often associated.
pub fn sound(random: &mut Random) -> Meter {
    let period = random.pick(&PERIODS);
    let register_count = random.pick(&[0, 1, 3, 6, 8, 12, MOST_REGISTERS, MOST_REGISTERS]);
    let registers = registers(random, register_count);
    let any = random.between(0, MOST_COLUMNS);
    let column_count = random.pick(&[0, 1, 6, 6, 7, 11, any, any, MOST_COLUMNS]);
    let columns = columns(random, &registers, column_count);
    let record_number: u16 = random.pick(&[0, 1, 65533, 65534, 65535, 500]);
    let any = random.between(0, MOST_ROWS);
    let row_count = random.pick(&[0, 1, 10, any, any, MOST_ROWS - 1, MOST_ROWS, MOST_ROWS]);
    let rows = rows(random, period, record_number, columns.len(), row_count);
    let mut meter = Meter {
        title: random.field(),
        verification: verification(random),
        han: han(random),
        p5: random.percent(20),
        device: random.field(),
        clock: clock(random, period),
        period,
        record_number,
        registers,
        columns,
        rows,
        transfer: Transfer::Absent,
    };
    meter.transfer = transfer(random, &meter);
    meter
}

/// A transfer that this meter may hold.
fn transfer(random: &mut Random, meter: &Meter) -> Transfer {
    let mut held = meter.clone();
    for _ in 0..6 {
        held.transfer = any_transfer(random, meter);
        if held.is_sound() {
            return held.transfer;
        }
    }
    Transfer::Absent
}

/// Any transfer, most times one that a meter with many rows can hold.
fn any_transfer(random: &mut Random, meter: &Meter) -> Transfer {
    let (from, to) = ends(random, meter);
    let entries = (random.pick(&[1, 1, 2, 3]), random.pick(&[0, 0, 14, 15, 16, u32::MAX]));
    let selection = match random.below(4) {
        0..=1 => None,
        2 => Some(Selection::Range { from, to }),
        _ => Some(Selection::Entries { from: entries.0, to: entries.1, columns: WHOLE_ROWS }),
    };
    match random.below(6) {
        0 => Transfer::Absent,
        1 => Transfer::Ended,
        _ => Transfer::Running { selection, block: random.pick(&[1, 1, 2]) },
    }
}

fn verification(random: &mut Random) -> Verification {
    let association = match random.below(3) {
        0 => Plain::Associated(services(random, OFFERED_PLAIN)),
        _ => Plain::Absent,
    };
    Verification { title: random.field(), linked: association != Plain::Absent || random.percent(40), association }
}

fn han(random: &mut Random) -> Han {
    let (agreed, key) = (services(random, OFFERED_CIPHERED), random.field());
    let association = match random.below(8) {
        0..=3 => Ciphered::Associated { agreed, key },
        4..=5 => Ciphered::Pending { agreed, key, client_challenge: random.field(), meter_challenge: random.field() },
        _ => Ciphered::Absent,
    };
    let linked = association != Ciphered::Absent || random.percent(70);
    Han { title: random.field(), linked, association, accepted: counter(random), sent: counter(random) }
}

/// A sound meter with H associated for all services, any number of columns and any number of rows.
pub fn readable(random: &mut Random) -> Meter {
    let mut meter = sound(random);
    meter.registers = registers(random, MOST_REGISTERS);
    let column_count = random.between(0, MOST_COLUMNS);
    meter.columns = columns(random, &meter.registers, column_count);
    let row_count = random.between(0, MOST_ROWS);
    meter.rows = rows(random, meter.period, meter.record_number, column_count, row_count);
    associate(random, &mut meter, OFFERED_CIPHERED);
    meter
}

/// H is associated for these services, perhaps with a transfer.
fn associate(random: &mut Random, meter: &mut Meter, agreed: [u8; 3]) {
    meter.han.linked = true;
    meter.han.association = Ciphered::Associated { agreed, key: random.field() };
    meter.transfer = Transfer::Absent;
    meter.transfer = transfer(random, meter);
}

/// A sound meter with H associated whose rows take two blocks or three; seldom a service is not agreed.
pub fn long(random: &mut Random) -> Meter {
    let all = OFFERED_CIPHERED;
    let agreed = random.pick(&[all, all, all, all, all, [0, 0x10, 0x14], [0, 0x10, 0x11], [0, 0, 0x15]]);
    let mut meter = readable(random);
    let column_count = random.pick(&[MOST_COLUMNS, MOST_COLUMNS, MOST_COLUMNS, MOST_COLUMNS, 15, 12, 10, 7]);
    meter.columns = columns(random, &meter.registers, column_count);
    let row_count = random.pick(&[MOST_ROWS, MOST_ROWS, MOST_ROWS, MOST_ROWS, 14, 13]);
    meter.rows = rows(random, meter.period, meter.record_number, column_count, row_count);
    associate(random, &mut meter, agreed);
    meter
}

/// A sound meter in which H is pending or associated, beside the overflow.
pub fn at_overflow(random: &mut Random) -> Meter {
    let mut meter = readable(random);
    meter.han.accepted = beside_overflow(random);
    if random.percent(70) {
        let (key, client_challenge, meter_challenge) = (random.field(), random.field(), random.field());
        meter.han.association = Ciphered::Pending { agreed: OFFERED_CIPHERED, key, client_challenge, meter_challenge };
        meter.transfer = Transfer::Absent;
    }
    meter
}

/// The image of a meter; what the meter does not hold is any bytes that an image may have there.
pub fn image(random: &mut Random, meter: &Meter) -> Vec<u8> {
    let mut filling = match random.below(3) {
        0 => vec![0; SIZE],
        _ => random.bytes(SIZE),
    };
    for place in image::flag_places() {
        filling[place] &= 1;
    }
    for place in image::CHOICE_PLACES {
        filling[place] %= 3;
    }
    image::write(meter, &filling)
}

/// An image that fails this clause.
pub fn unsound(random: &mut Random, clause: Clause) -> Vec<u8> {
    let mut meter = rich(random);
    spoil_lists(random, &mut meter, clause);
    spoil_line(random, &mut meter, clause);
    let mut image = image(random, &meter);
    let counted = match clause {
        Clause::RegisterCount => Some((layout::AT_REGISTER_COUNT, MOST_REGISTERS)),
        Clause::ColumnCount => Some((layout::AT_COLUMN_COUNT, MOST_COLUMNS)),
        Clause::RowCount => Some((layout::AT_ROW_COUNT, MOST_ROWS)),
        Clause::RowCells if random.percent(40) => Some((layout::at_row(0) + layout::IN_ROW_CELL_COUNT, MOST_COLUMNS)),
        _ => None,
    };
    if let Some((place, capacity)) = counted {
        let right = image[place + 7];
        image[place..place + 8].copy_from_slice(&count_above(random, capacity, right).to_be_bytes());
    }
    image
}

/// A sound meter with two registers, two columns and a row at least.
fn rich(random: &mut Random) -> Meter {
    loop {
        let meter = sound(random);
        if meter.columns.len() >= 2 && !meter.rows.is_empty() {
            return meter;
        }
    }
}

/// A count that is too high; one that is cut to fewer bits may be the right one.
fn count_above(random: &mut Random, capacity: usize, right: u8) -> u64 {
    let above = capacity as u64 + 1;
    let beyond = 1_u64 << random.pick(&[8, 16, 31, 32, 48, 63]);
    random.pick(&[above, above, above + 1, 255, u64::MAX, beyond, beyond + u64::from(right)])
}

fn spoil_lists(random: &mut Random, meter: &mut Meter, clause: Clause) {
    let register = random.place(meter.registers.len());
    let column = random.place(meter.columns.len());
    let row = random.place(meter.rows.len());
    match clause {
        Clause::RegisterTwice => {
            let other = (register + random.between(1, meter.registers.len() - 1)) % meter.registers.len();
            meter.registers[register].name = meter.registers[other].name;
        }
        Clause::RegisterOwnName => meter.registers[register].name = random.pick(&OWN_NAMES),
        Clause::ColumnTwice => {
            let other = (column + random.between(1, meter.columns.len() - 1)) % meter.columns.len();
            meter.columns[column] = meter.columns[other];
        }
        Clause::ColumnNotGiven => {
            let own = random.pick(&OWN_NAMES);
            meter.columns[column] = random.pick(&[[1, 0, 99, 8, 0, 255], own, [0; 6]]);
        }
        Clause::Period => meter.period = wrong_period(random),
        Clause::Clock => meter.clock = wrong_clock(random),
        Clause::RowClock => meter.rows[row].clock = wrong_clock(random),
        Clause::RowCount if random.percent(60) => meter.rows.resize(MOST_ROWS, meter.rows[row].clone()),
        Clause::RowCells => {
            meter.rows[row].cells.pop();
        }
        _ => {}
    }
}

fn spoil_line(random: &mut Random, meter: &mut Meter, clause: Clause) {
    let (v, h) = (&mut meter.verification, &mut meter.han);
    let beyond = random.pick(&[[0, 0, 0x02], [0, 0, 0x08], [0, 0x20, 0], [0x80, 0, 0], [0, 0x10, 0xFF], [0, 0, 0x40]]);
    let key = random.array();
    let (client_challenge, meter_challenge) = (random.array(), random.array());
    match clause {
        Clause::VerificationKind => (v.linked, v.association) = (true, Plain::Pending),
        Clause::VerificationWithoutLink => (v.linked, v.association) = (false, Plain::Associated([0, 0, 0x10])),
        Clause::VerificationServices => {
            let services = random.pick(&[beyond, [0, 0x10, 0x14], [0, 0, 0x15], [0, 0, 0x01]]);
            (v.linked, v.association) = (true, Plain::Associated(services));
        }
        Clause::HanWithoutLink => {
            (h.linked, h.association) = (false, Ciphered::Associated { agreed: OFFERED_CIPHERED, key })
        }
        Clause::HanServices if random.percent(50) => {
            (h.linked, h.association) = (true, Ciphered::Associated { agreed: beyond, key })
        }
        Clause::HanServices => {
            let pending = Ciphered::Pending { agreed: beyond, key, client_challenge, meter_challenge };
            (h.linked, h.association) = (true, pending)
        }
        _ => {}
    }
}

/// An image with a transfer that fails this clause.
pub fn unsound_transfer(random: &mut Random, clause: Clause) -> Vec<u8> {
    let mut meter = long(random);
    if clause == Clause::TransferShort && random.percent(60) {
        fill_one_frame(random, &mut meter);
    }
    associate(random, &mut meter, OFFERED_CIPHERED);
    let selection = spoiled_selection(random, &meter, clause);
    let any = random.number32();
    let block = match clause {
        Clause::TransferBlockZero => 0,
        Clause::TransferBlockBeyond => random.pick(&[3, 3, 3, 4, 257, 65538, 1 << 24 | 1, 1 << 31, u32::MAX, any | 4]),
        Clause::TransferShort => 1,
        _ => random.pick(&[1, 1, 2]),
    };
    meter.transfer = Transfer::Running { selection, block };
    spoil_holder(random, &mut meter, clause);
    image(random, &meter)
}

/// What a transfer is of: all rows in one way or another, or what fails this clause.
fn spoiled_selection(random: &mut Random, meter: &Meter, clause: Clause) -> Option<Selection> {
    let (from, to) = wide(meter);
    let range = Some(Selection::Range { from, to });
    let entries = |from, to| Some(Selection::Entries { from, to, columns: WHOLE_ROWS });
    match clause {
        Clause::TransferWithoutSelection => random.pick(&[range, entries(1, 0)]),
        Clause::TransferClock | Clause::TransferRange => spoiled_range(random, clause, from, to),
        Clause::TransferEntries => wrong_entries(random, meter.rows.len() as u32),
        Clause::TransferShort if meter.columns.len() > LAST_IN_ONE_FRAME => {
            random.pick(&[entries(1, 2), entries(9, 0)])
        }
        _ => random.pick(&[None, range, entries(1, 0)]),
    }
}

/// With so many columns fifteen rows go in one frame: 737 bytes, which are more than one block has.
const LAST_IN_ONE_FRAME: usize = 6;

/// The longest rows that are no transfer.
fn fill_one_frame(random: &mut Random, meter: &mut Meter) {
    meter.columns = columns(random, &meter.registers, LAST_IN_ONE_FRAME);
    meter.rows = rows(random, meter.period, meter.record_number, LAST_IN_ONE_FRAME, MOST_ROWS);
}

/// A range that has every row of the meter.
fn wide(meter: &Meter) -> (Clock, Clock) {
    let clocks = || meter.rows.iter().map(|row| row.clock);
    let first = clocks().min_by_key(moment).unwrap_or(meter.clock);
    let last = clocks().max_by_key(moment).unwrap_or(meter.clock);
    (shifted(&first, -1), shifted(&last, 1))
}

/// A range with an end that is no clock, or with ends that are equal or reversed.
fn spoiled_range(random: &mut Random, clause: Clause, from: Clock, to: Clock) -> Option<Selection> {
    let (no_from, no_to) = (broken(random, from), broken(random, to));
    let (from, to) = match clause {
        Clause::TransferClock => random.pick(&[(no_from, to), (from, no_to), (no_from, no_to)]),
        _ => random.pick(&[(to, from), (to, to), (shifted(&to, 1), to)]),
    };
    Some(Selection::Range { from, to })
}

/// Entries that a profile with so many rows denies.
fn wrong_entries(random: &mut Random, rows: u32) -> Option<Selection> {
    let (from, to) = random.pick(&[(0, 0), (0, 9), (rows + 1, 0), (u32::MAX, 0), (2, 1), (rows, 1), (rows, rows - 1)]);
    Some(Selection::Entries { from, to, columns: WHOLE_ROWS })
}

/// H's association is not one that a transfer can have; of those that have no part in its read it may have ended.
fn spoil_holder(random: &mut Random, meter: &mut Meter, clause: Clause) {
    let (key, client_challenge, meter_challenge) = (random.field(), random.field(), random.field());
    let agreed = match clause {
        Clause::TransferWithoutHan => {
            let pending = Ciphered::Pending { agreed: OFFERED_CIPHERED, key, client_challenge, meter_challenge };
            meter.han.association = random.pick(&[Ciphered::Absent, pending]);
            meter.transfer = random.pick(&[meter.transfer.clone(), Transfer::Ended]);
            return;
        }
        Clause::TransferWithoutGet => random.pick(&[[0, 0x10, 0x05], [0, 0x10, 0x04], [0, 0x10, 0]]),
        Clause::TransferWithoutBlocks => random.pick(&[[0, 0, 0x15], [0, 0, 0x14], [0, 0, 0x10]]),
        Clause::TransferWithoutSelection => random.pick(&[[0, 0x10, 0x11], [0, 0x10, 0x10]]),
        _ => return,
    };
    meter.han.association = Ciphered::Associated { agreed, key };
    if clause != Clause::TransferWithoutSelection && random.percent(40) {
        meter.transfer = Transfer::Ended;
    }
}

/// A buffer that is no state: another size, another version, a wrong flag, a phase or another choice above its last.
pub fn refused(random: &mut Random) -> Vec<u8> {
    let meter = sound(random);
    let mut image = image(random, &meter);
    let flags = image::flag_places();
    match random.below(4) {
        0 => {
            let length = random.pick(&[0, 1, SIZE - 1, SIZE + 1, SIZE - layout::TRANSFER_SIZE, 2 * SIZE]);
            image.resize(length, 0);
        }
        1 => image[0] = random.pick(&[0, layout::LAYOUT - 1, layout::LAYOUT + 1, 0xFF, layout::LAYOUT | 0x80]),
        2 => image[flags[random.place(flags.len())]] = random.pick(&[2, 3, 0x80, 0xFF]),
        _ => image[random.pick(&image::CHOICE_PLACES)] = random.pick(&[3, 4, 0x80, 0xFF]),
    }
    image
}

/// The clock after this one that is due by the period: the tests would else wait long for rows.
pub fn next_due(meter: &Meter) -> Clock {
    let mut clock = meter.clock;
    loop {
        clock[7] = (clock[7] + 1) % 60;
        clock[6] = if clock[7] == 0 { (clock[6] + 1) % 60 } else { clock[6] };
        if is_due(&clock, meter.period) {
            return clock;
        }
    }
}

/// Any object's name that H might ask for, and the class it has.
pub fn object(random: &mut Random, meter: &Meter) -> (Name, u16) {
    let own = [
        (meter::CLOCK, 8),
        (meter::TIME, 1),
        (meter::DATE, 1),
        (meter::DEVICE_NAME, 1),
        (meter::PROFILE, 7),
        (meter::RECORD_NUMBER, 3),
    ];
    match random.below(10) {
        0..=2 if !meter.rows.is_empty() => (meter::PROFILE, 7),
        0..=5 => random.pick(&own),
        6..=8 if !meter.registers.is_empty() => (meter.registers[random.below(meter.registers.len())].name, 3),
        9 => random.pick(&[(meter::CHALLENGE, 15), ([0, 0, 40, 0, 0, 255], 15), ([0; 6], 1)]),
        _ => (name(random), 3),
    }
}
