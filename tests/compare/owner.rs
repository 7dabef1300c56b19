//! The owner's calls, valid and not, on the meter as it stands.

use crate::random::Random;
use crate::states::{self, name, next_due, register, wrong_clock, wrong_period, PERIODS};
use reference::image::register_record;
use reference::layout::{IN_REGISTER_RIGHT, REGISTER_SIZE};
use reference::library::Call;
use reference::meter::{Meter, Register, OWN_NAMES};
use reference::soundness::MOST_REGISTERS;
use reference::transfer::Transfer;

/// Any owner's call but a new meter. A meter without registers or columns often gets some, so that rows have cells.
pub fn call(random: &mut Random, meter: &Meter) -> Call {
    if meter.transfer != Transfer::Absent && random.percent(60) {
        return during_transfer(random, meter);
    }
    match random.below(20) {
        0..=9 if meter.registers.is_empty() => give_registers(random),
        0..=5 if meter.columns.is_empty() => set_columns(random, meter),
        0 => give_registers(random),
        1 => set_columns(random, meter),
        2..=5 => set_value(random, meter),
        6 => Call::SetPeriod(if random.percent(60) { random.pick(&PERIODS) } else { wrong_period(random) }),
        7..=14 => Call::Tick(clock(random, meter)),
        17 => Call::SetP5(random.pick(&[0, 0, 0, 0, 1, 1, 2, 255, 256, 257, 65537, u32::MAX])),
        15..=16 if meter.is_sound() => Call::Tick(next_due(meter).to_vec()),
        18 if random.percent(60) => set_value(random, meter),
        19 => Call::Tick(clock(random, meter)),
        _ => Call::PowerUp,
    }
}

/// While there is a transfer: the calls that end it, and each other one.
fn during_transfer(random: &mut Random, meter: &Meter) -> Call {
    match random.below(12) {
        0..=2 => give_registers(random),
        3..=4 => set_columns(random, meter),
        5 => Call::SetColumns(meter.columns.concat()),
        6..=7 => Call::SetPeriod(random.pick(&PERIODS)),
        8 => set_value(random, meter),
        9 => Call::SetP5(random.pick(&[0, 1])),
        10 => Call::Tick(clock(random, meter)),
        _ => Call::PowerUp,
    }
}

/// A new meter; seldom a length is wrong.
pub fn new_meter(random: &mut Random) -> Call {
    let mut lengths = [16, 8, 8, 8];
    if random.percent(25) {
        lengths[random.below(4)] = random.pick(&[0, 7, 9, 15, 17]);
    }
    let [device, title, v_title, h_title] = lengths.map(|length| random.bytes(length));
    Call::New { device, title, v_title, h_title }
}

fn clock(random: &mut Random, meter: &Meter) -> Vec<u8> {
    let mut clock = match random.below(10) {
        0..=1 => wrong_clock(random),
        2 => meter.clock,
        _ => states::clock(random, meter.period),
    }
    .to_vec();
    if random.percent(3) {
        clock.resize(random.pick(&[0, 11, 13]), 0);
    }
    clock
}

fn give_registers(random: &mut Random) -> Call {
    let count = random.pick(&[0, 1, 5, 7, 8, 10, 16, 16]);
    let mut list = states::registers(random, count);
    let place = random.below(count.max(1));
    match random.below(10) {
        0 => {
            let own = random.pick(&OWN_NAMES);
            list.insert(place, register(random, own));
        }
        1 if count > 0 => list.push(list[place].clone()),
        2 => list.extend(beyond(random, MOST_REGISTERS + 1 - count)),
        _ => {}
    }
    let mut records: Vec<u8> = list.iter().flat_map(register_record).collect();
    match random.below(20) {
        0 if !list.is_empty() => {
            records[REGISTER_SIZE * random.below(list.len()) + IN_REGISTER_RIGHT] = random.pick(&[2, 0x80, 0xFF])
        }
        1 => records.extend(random.pick(&[vec![0], vec![1; 12]])),
        _ => {}
    }
    Call::GiveRegisters(records)
}

/// Registers of which no list above has one, so that only their number can be wrong: about as many as are too many.
fn beyond(random: &mut Random, least: usize) -> Vec<Register> {
    let count = random.pick(&[least, least, least - 1, least + 1, 300]);
    (0..count).map(|i| register(random, [2, 0, 0, 0, (i >> 8) as u8, i as u8])).collect()
}

fn set_value(random: &mut Random, meter: &Meter) -> Call {
    let mut wanted = match random.percent(75) && !meter.registers.is_empty() {
        true => meter.registers[random.below(meter.registers.len())].name.to_vec(),
        false => name(random).to_vec(),
    };
    if random.percent(5) {
        wanted.resize(random.pick(&[0, 5, 7]), 0);
    }
    Call::SetValue(wanted, random.number32())
}

fn set_columns(random: &mut Random, meter: &Meter) -> Call {
    let count = random.pick(&[0, 1, 5, 6, 6, 7, 11, 16]);
    let mut names = states::columns(random, &meter.registers, count);
    let place = random.below(names.len().max(1));
    match random.below(8) {
        0 => names.insert(place, name(random)),
        1 if !names.is_empty() => names.push(names[place]),
        2 => names.extend(vec![[9; 6]; random.pick(&[1, 17, 300])]),
        _ => {}
    }
    let mut bytes = names.concat();
    if random.percent(4) {
        bytes.extend(random.pick(&[vec![0], vec![1; 5]]));
    }
    Call::SetColumns(bytes)
}
