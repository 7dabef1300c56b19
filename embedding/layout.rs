//! The places of an image: made from include/layout.txt by include/make.
#![allow(dead_code)]

pub const LAYOUT: u8 = 2;
pub const STATE_SIZE: usize = 1766;
pub const CLIENT_SIZE: usize = 13;
pub const REGISTER_SIZE: usize = 13;
pub const ROW_SIZE: usize = 86;
pub const TRANSFER_SIZE: usize = 38;
pub const REGISTERS: usize = 16;
pub const COLUMNS: usize = 16;
pub const ROWS: usize = 15;
pub const CELLS: usize = 16;

pub const AT_VERSION: usize = 0;
pub const AT_TITLE: usize = 1;
pub const AT_V: usize = 9;
pub const AT_H: usize = 22;
pub const AT_H_KEY: usize = 35;
pub const AT_H_CHALLENGE: usize = 51;
pub const AT_METER_CHALLENGE: usize = 59;
pub const AT_H_ACCEPTED: usize = 67;
pub const AT_H_SENT: usize = 71;
pub const AT_P5: usize = 75;
pub const AT_DEVICE: usize = 76;
pub const AT_CLOCK: usize = 92;
pub const AT_PERIOD: usize = 104;
pub const AT_RECORD_NUMBER: usize = 108;
pub const AT_REGISTER_COUNT: usize = 110;
pub const fn at_register(i: usize) -> usize {
    118 + 13 * i
}
pub const AT_COLUMN_COUNT: usize = 326;
pub const fn at_column(i: usize) -> usize {
    334 + 6 * i
}
pub const AT_ROW_COUNT: usize = 430;
pub const fn at_row(i: usize) -> usize {
    438 + 86 * i
}
pub const AT_TRANSFER: usize = 1728;

pub const IN_CLIENT_TITLE: usize = 0;
pub const IN_CLIENT_LINK: usize = 8;
pub const IN_CLIENT_PHASE: usize = 9;
pub const IN_CLIENT_SERVICES: usize = 10;

pub const IN_REGISTER_NAME: usize = 0;
pub const IN_REGISTER_RIGHT: usize = 6;
pub const IN_REGISTER_SCALER: usize = 7;
pub const IN_REGISTER_UNIT: usize = 8;
pub const IN_REGISTER_VALUE: usize = 9;

pub const IN_ROW_NUMBER: usize = 0;
pub const IN_ROW_CLOCK: usize = 2;
pub const IN_ROW_CELL_COUNT: usize = 14;
pub const fn in_row_cell(i: usize) -> usize {
    22 + 4 * i
}

pub const IN_TRANSFER_STATE: usize = 0;
pub const IN_TRANSFER_SELECTOR: usize = 1;
pub const IN_TRANSFER_FROM_CLOCK: usize = 2;
pub const IN_TRANSFER_TO_CLOCK: usize = 14;
pub const IN_TRANSFER_FROM_ENTRY: usize = 26;
pub const IN_TRANSFER_TO_ENTRY: usize = 30;
pub const IN_TRANSFER_BLOCK: usize = 34;
