//! Fields of an image by their names, so that unsound meters have words wherever the layout puts a field.

use crate::words::{bytes, number, put, Words};
use reference::layout::*;

/// Puts what the words say into the image: each field as often as it is named.
pub fn change(words: &mut Words, image: &mut [u8]) -> Result<(), String> {
    for (key, place) in [("registers", AT_REGISTER_COUNT), ("columns", AT_COLUMN_COUNT), ("rows", AT_ROW_COUNT)] {
        if let Some(count) = words.option(key) {
            put(image, place, &number::<u64>(count)?.to_be_bytes())?;
        }
    }
    if let Some(clock) = words.bytes("clock")? {
        put(image, AT_CLOCK, &clock)?;
    }
    for key in ["link", "phase", "services", "register", "column", "row", "cells", "transfer"] {
        while let Some(given) = words.option(key) {
            let (item, value) = given.split_once(':').ok_or(format!("{key} takes ITEM:VALUE"))?;
            let value = if key == "cells" { number::<u64>(value)?.to_be_bytes().into() } else { bytes(value)? };
            put(image, place(key, item)?, &value)?;
        }
    }
    Ok(())
}

/// Where the field of an item stands: of a client, of the transfer, or of a register, a column or a row by its number from 0.
fn place(key: &str, item: &str) -> Result<usize, String> {
    let in_client = match key {
        "link" => IN_CLIENT_LINK,
        "phase" => IN_CLIENT_PHASE,
        "services" => IN_CLIENT_SERVICES,
        "register" => return Ok(at_register(number(item)?) + IN_REGISTER_NAME),
        "column" => return Ok(at_column(number(item)?)),
        "row" => return Ok(at_row(number(item)?) + IN_ROW_CLOCK),
        "transfer" => return in_transfer(item).map(|place| AT_TRANSFER + place),
        _ => return Ok(at_row(number(item)?) + IN_ROW_CELL_COUNT),
    };
    match item {
        "V" => Ok(AT_V + in_client),
        "H" => Ok(AT_H + in_client),
        _ => Err(format!("{key} takes V:BYTES or H:BYTES")),
    }
}

/// Where a field of a transfer stands in it.
fn in_transfer(item: &str) -> Result<usize, String> {
    Ok(match item {
        "state" => IN_TRANSFER_STATE,
        "selector" => IN_TRANSFER_SELECTOR,
        "from-clock" => IN_TRANSFER_FROM_CLOCK,
        "to-clock" => IN_TRANSFER_TO_CLOCK,
        "from-entry" => IN_TRANSFER_FROM_ENTRY,
        "to-entry" => IN_TRANSFER_TO_ENTRY,
        "block" => IN_TRANSFER_BLOCK,
        _ => return Err(format!("a transfer has no field {item}")),
    })
}
