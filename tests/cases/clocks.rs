//! Clocks in words. A date and a time of day need not be real, so that wrong clocks have words, too.

use crate::words::{bytes, number};
use reference::clock::Clock;

/// The clock of a date `YYYY-MM-DD` and a time of day `HH:MM:SS`.
pub fn clock(date: &str, time: &str) -> Result<Clock, String> {
    let (year, day) = date.split_once('-').ok_or("a date is YYYY-MM-DD")?;
    let parts = |text: &str, separator| text.split(separator).map(number).collect::<Result<Vec<u8>, String>>();
    let [month, day] = parts(day, '-')?.try_into().map_err(|_| "a date is YYYY-MM-DD")?;
    let [hour, minute, second] = parts(time, ':')?.try_into().map_err(|_| "a time of day is HH:MM:SS")?;
    let [high, low] = number::<u16>(year)?.to_be_bytes();
    Ok([high, low, month, day, 0xFF, hour, minute, second, 0xFF, 0x80, 0, 0])
}

/// The bytes of an end of a range: `DATETTIME`, a time of this day, or bytes as they stand.
pub fn end(text: &str, today: &Clock) -> Result<Vec<u8>, String> {
    match text.split_once('T') {
        Some((date, time)) => Ok(clock(date, time)?.to_vec()),
        None if text.contains(':') => {
            let mut end = clock("2000-01-01", text)?;
            end[..4].copy_from_slice(&today[..4]);
            Ok(end.to_vec())
        }
        None => bytes(text),
    }
}
