//! Clocks of twelve bytes and capture periods (document 01, "Objects and rows").

pub type Clock = [u8; 12];

/// The clock of a new meter: the first second of 2017.
pub const FIRST_CLOCK: Clock = [0x07, 0xE1, 1, 1, 0xFF, 0, 0, 0, 0xFF, 0x80, 0, 0];

fn is_leap(year: u16) -> bool {
    year % 4 == 0 && (year % 100 != 0 || year % 400 == 0)
}

pub fn days_in(year: u16, month: u8) -> u8 {
    match month {
        2 if is_leap(year) => 29,
        2 => 28,
        4 | 6 | 9 | 11 => 30,
        _ => 31,
    }
}

/// A real date from 2000 to 2099 and a time of day; what the meter does not know has its fixed value.
pub fn is_valid(clock: &Clock) -> bool {
    let [high, low, month, day, weekday, hour, minute, second, hundredths, deviation @ .., status] = *clock;
    let year = u16::from_be_bytes([high, low]);
    (2000..=2099).contains(&year)
        && (1..=12).contains(&month)
        && (1..=days_in(year, month)).contains(&day)
        && hour < 24
        && minute < 60
        && second < 60
        && (weekday, hundredths, deviation, status) == (0xFF, 0xFF, [0x80, 0x00], 0x00)
}

/// The moment that a valid clock names, in seconds since the first of 2000: by it clocks are drawn, and none is judged.
pub fn moment(clock: &Clock) -> u64 {
    let [high, low, month, day, _, hour, minute, second, ..] = *clock;
    let year = u16::from_be_bytes([high, low]);
    let years: u64 = (2000..year).map(|year| if is_leap(year) { 366 } else { 365 }).sum();
    let months: u64 = (1..month).map(|month| u64::from(days_in(year, month))).sum();
    let days = years + months + u64::from(day) - 1;
    ((days * 24 + u64::from(hour)) * 60 + u64::from(minute)) * 60 + u64::from(second)
}

/// Whether a capture is due at this second of the hour.
pub fn is_due(clock: &Clock, period: u32) -> bool {
    (u32::from(clock[6]) * 60 + u32::from(clock[7])) % period == 0
}

/// The multiples of 30 that divide 3600.
pub fn is_period(period: u32) -> bool {
    period != 0 && period % 30 == 0 && 3600 % period == 0
}
