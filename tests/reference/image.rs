//! State buffers by docs/IMAGE.md: a meter read from one, field by field, and one written for a meter, by the places of the
//! table that the page is made from.
//! A count above its array is read as one item more than the array has: enough to be unsound, as the count is.

use crate::bytes::Reader;
use crate::layout::*;
use crate::meter::{Ciphered, Han, Meter, Plain, Register, Row, Verification};
use crate::objects::{Selection, WHOLE_ROWS};
use crate::request::Name;
use crate::transfer::Transfer;

pub const SIZE: usize = STATE_SIZE;

pub const WRONG_SIZE: u8 = 101;
pub const WRONG_VERSION: u8 = 102;
/// A byte that no meter has: document 01's number for a state that is not sound.
pub const NO_STATE: u8 = 3;

/// Every place of a flag.
pub fn flag_places() -> Vec<usize> {
    let rights = (0..REGISTERS).map(|i| at_register(i) + IN_REGISTER_RIGHT);
    [AT_V + IN_CLIENT_LINK, AT_H + IN_CLIENT_LINK, AT_P5].into_iter().chain(rights).collect()
}

/// The places of what is 0, 1 or 2: the two phases, and state and selector of a transfer.
pub const CHOICE_PLACES: [usize; 4] = [
    AT_V + IN_CLIENT_PHASE,
    AT_H + IN_CLIENT_PHASE,
    AT_TRANSFER + IN_TRANSFER_STATE,
    AT_TRANSFER + IN_TRANSFER_SELECTOR,
];

/// The meter of a buffer, or the refusal by which the buffer is none.
pub fn read(image: &[u8]) -> Result<Meter, u8> {
    if image.len() != SIZE {
        return Err(WRONG_SIZE);
    }
    if image[AT_VERSION] != LAYOUT {
        return Err(WRONG_VERSION);
    }
    let flags = flag_places().iter().all(|&place| image[place] <= 1);
    let choices = CHOICE_PLACES.iter().all(|&place| image[place] <= 2);
    if !flags || !choices {
        return Err(NO_STATE);
    }
    Ok(meter(&mut Reader::new(&image[1..])).expect("an image of the right size has every field"))
}

fn meter(reader: &mut Reader) -> Option<Meter> {
    let title = reader.array()?;
    let verification = verification(reader)?;
    let han = han(reader)?;
    Some(Meter {
        title,
        verification,
        han,
        p5: flag(reader)?,
        device: reader.array()?,
        clock: reader.array()?,
        period: reader.number32()?,
        record_number: reader.number16()?,
        registers: list(reader, REGISTERS, register)?,
        columns: list(reader, COLUMNS, Reader::array)?,
        rows: list(reader, ROWS, row)?,
        transfer: transfer(reader)?,
    })
}

fn flag(reader: &mut Reader) -> Option<bool> {
    reader.byte().map(|byte| byte == 1)
}

fn verification(reader: &mut Reader) -> Option<Verification> {
    let title = reader.array()?;
    let linked = flag(reader)?;
    let phase = reader.byte()?;
    let agreed = reader.array()?;
    let association = match phase {
        0 => Plain::Absent,
        1 => Plain::Pending,
        _ => Plain::Associated(agreed),
    };
    Some(Verification { title, linked, association })
}

fn han(reader: &mut Reader) -> Option<Han> {
    let title = reader.array()?;
    let linked = flag(reader)?;
    let phase = reader.byte()?;
    let agreed = reader.array()?;
    let (key, client_challenge, meter_challenge) = (reader.array()?, reader.array()?, reader.array()?);
    let association = match phase {
        0 => Ciphered::Absent,
        1 => Ciphered::Pending { agreed, key, client_challenge, meter_challenge },
        _ => Ciphered::Associated { agreed, key },
    };
    Some(Han { title, linked, association, accepted: reader.number32()?, sent: reader.number32()? })
}

fn register(reader: &mut Reader) -> Option<Register> {
    Some(Register {
        name: reader.array()?,
        right: flag(reader)?,
        scaler: reader.byte()?,
        unit: reader.byte()?,
        value: reader.number32()?,
    })
}

fn row(reader: &mut Reader) -> Option<Row> {
    Some(Row { number: reader.number16()?, clock: reader.array()?, cells: list(reader, CELLS, Reader::number32)? })
}

/// What a transfer holds: where it runs the block, and of clocks and entries those that its selector means.
fn transfer(reader: &mut Reader) -> Option<Transfer> {
    let (state, selector) = (reader.byte()?, reader.byte()?);
    let range = Selection::Range { from: reader.array()?, to: reader.array()? };
    let entries = Selection::Entries { from: reader.number32()?, to: reader.number32()?, columns: WHOLE_ROWS };
    let block = reader.number32()?;
    let selection = match selector {
        0 => None,
        1 => Some(range),
        _ => Some(entries),
    };
    Some(match state {
        0 => Transfer::Absent,
        1 => Transfer::Running { selection, block },
        _ => Transfer::Ended,
    })
}

/// A count and an array that is there in full: the items that are counted, and the last one again for a count above.
fn list<'a, T: Clone>(
    reader: &mut Reader<'a>,
    capacity: usize,
    item: impl Fn(&mut Reader<'a>) -> Option<T>,
) -> Option<Vec<T>> {
    let count = u64::from_be_bytes(reader.array()?);
    let slots = (0..capacity).map(|_| item(reader)).collect::<Option<Vec<T>>>()?;
    let counted = usize::try_from(count).unwrap_or(usize::MAX);
    let surplus = (counted > capacity).then(|| slots[capacity - 1].clone());
    Some(slots.into_iter().take(counted).chain(surplus).collect())
}

/// The image of a meter whose lists fit. What a meter does not hold keeps the bytes of the filling, which has its size.
pub fn write(meter: &Meter, filling: &[u8]) -> Vec<u8> {
    let mut image = filling.to_vec();
    let mut put = |place: usize, bytes: &[u8]| image[place..place + bytes.len()].copy_from_slice(bytes);
    put(AT_VERSION, &[LAYOUT]);
    put(AT_TITLE, &meter.title);
    put_verification(&meter.verification, &mut put);
    put_han(&meter.han, &mut put);
    put(AT_P5, &[meter.p5.into()]);
    put(AT_DEVICE, &meter.device);
    put(AT_CLOCK, &meter.clock);
    put(AT_PERIOD, &meter.period.to_be_bytes());
    put(AT_RECORD_NUMBER, &meter.record_number.to_be_bytes());
    put_lists(meter, &mut put);
    put_transfer(&meter.transfer, &mut put);
    image
}

fn put_verification(client: &Verification, put: &mut impl FnMut(usize, &[u8])) {
    let phase = match client.association {
        Plain::Absent => 0,
        Plain::Pending => 1,
        Plain::Associated(agreed) => {
            put(AT_V + IN_CLIENT_SERVICES, &agreed);
            2
        }
    };
    put(AT_V + IN_CLIENT_TITLE, &client.title);
    put(AT_V + IN_CLIENT_LINK, &[client.linked.into()]);
    put(AT_V + IN_CLIENT_PHASE, &[phase]);
}

fn put_han(client: &Han, put: &mut impl FnMut(usize, &[u8])) {
    let phase = match &client.association {
        Ciphered::Absent => 0,
        Ciphered::Pending { agreed, key, client_challenge, meter_challenge } => {
            put(AT_H + IN_CLIENT_SERVICES, agreed);
            put(AT_H_KEY, key);
            put(AT_H_CHALLENGE, client_challenge);
            put(AT_METER_CHALLENGE, meter_challenge);
            1
        }
        Ciphered::Associated { agreed, key } => {
            put(AT_H + IN_CLIENT_SERVICES, agreed);
            put(AT_H_KEY, key);
            2
        }
    };
    put(AT_H + IN_CLIENT_TITLE, &client.title);
    put(AT_H + IN_CLIENT_LINK, &[client.linked.into()]);
    put(AT_H + IN_CLIENT_PHASE, &[phase]);
    put(AT_H_ACCEPTED, &client.accepted.to_be_bytes());
    put(AT_H_SENT, &client.sent.to_be_bytes());
}

fn put_lists(meter: &Meter, put: &mut impl FnMut(usize, &[u8])) {
    let count = |list: usize| (list as u64).to_be_bytes();
    put(AT_REGISTER_COUNT, &count(meter.registers.len()));
    for (i, register) in meter.registers.iter().enumerate() {
        put(at_register(i), &register_record(register));
    }
    put(AT_COLUMN_COUNT, &count(meter.columns.len()));
    for (i, column) in meter.columns.iter().enumerate() {
        put(at_column(i), column);
    }
    put(AT_ROW_COUNT, &count(meter.rows.len()));
    for (i, row) in meter.rows.iter().enumerate() {
        let at = at_row(i);
        put(at + IN_ROW_NUMBER, &row.number.to_be_bytes());
        put(at + IN_ROW_CLOCK, &row.clock);
        put(at + IN_ROW_CELL_COUNT, &count(row.cells.len()));
        for (j, cell) in row.cells.iter().enumerate() {
            put(at + in_row_cell(j), &cell.to_be_bytes());
        }
    }
}

fn put_transfer(transfer: &Transfer, put: &mut impl FnMut(usize, &[u8])) {
    let state = match transfer {
        Transfer::Absent => 0,
        Transfer::Running { selection, block } => {
            put(AT_TRANSFER + IN_TRANSFER_BLOCK, &block.to_be_bytes());
            let selector = put_selection(selection, put);
            put(AT_TRANSFER + IN_TRANSFER_SELECTOR, &[selector]);
            1
        }
        Transfer::Ended => 2,
    };
    put(AT_TRANSFER + IN_TRANSFER_STATE, &[state]);
}

/// The number of the selector, whose ends then stand in their places.
fn put_selection(selection: &Option<Selection>, put: &mut impl FnMut(usize, &[u8])) -> u8 {
    match selection {
        None => 0,
        Some(Selection::Range { from, to }) => {
            put(AT_TRANSFER + IN_TRANSFER_FROM_CLOCK, from);
            put(AT_TRANSFER + IN_TRANSFER_TO_CLOCK, to);
            1
        }
        Some(Selection::Entries { from, to, .. }) => {
            put(AT_TRANSFER + IN_TRANSFER_FROM_ENTRY, &from.to_be_bytes());
            put(AT_TRANSFER + IN_TRANSFER_TO_ENTRY, &to.to_be_bytes());
            2
        }
    }
}

/// A register as thirteen bytes: in an image and in the call that gives registers alike.
pub fn register_record(register: &Register) -> Vec<u8> {
    let Register { name, right, scaler, unit, value } = register;
    [&name[..], &[(*right).into(), *scaler, *unit], &value.to_be_bytes()].concat()
}

/// The registers of a list of such records; `None` where a record is not whole or a right is neither 0 nor 1.
pub fn read_registers(records: &[u8]) -> Option<Vec<Register>> {
    if records.len() % REGISTER_SIZE != 0 {
        return None;
    }
    let is_right = |record: &[u8]| record[IN_REGISTER_RIGHT] <= 1;
    let records = records.chunks(REGISTER_SIZE);
    records.map(|record| is_right(record).then(|| register(&mut Reader::new(record)))?).collect()
}

/// The names of a list; `None` where a name is not whole.
pub fn read_names(names: &[u8]) -> Option<Vec<Name>> {
    names.chunks(6).map(|name| name.try_into().ok()).collect()
}
