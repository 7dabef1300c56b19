//! A call in words as lines of the script program: the owner's words, and frames with what is lent to them.

use crate::clocks::clock;
use crate::fields;
use crate::hexadecimal::hex;
use crate::plug::{self, AUTHENTICATION, GUK, METER_CHALLENGE};
use crate::script::{self, digits, VERBS};
use crate::words::{overlay, Words};
use reference::clock::Clock;
use reference::frame::LONGEST_FRAME;
use reference::image;
use reference::meter::Meter;

const NEW_METER: &str = "new 54504331303730323031303030303031 4D4D4D0000BC614E 5645520000000000 48414E0000000000";

/// How the hexadecimal digits of keys, frames and images are written.
#[derive(Clone, Copy)]
pub enum Letters {
    Large,
    Small,
}

impl Letters {
    fn put(self, digits: String) -> String {
        match self {
            Letters::Large => digits,
            Letters::Small => digits.to_lowercase(),
        }
    }
}

/// Whether a call is a line of the script program as it stands.
pub fn is_line(call: &str) -> bool {
    call.split(' ').next().is_some_and(|verb| VERBS.contains(&verb)) || script::read(call).is_some()
}

/// The lines that a call in words stands for, on the meter as it is.
pub fn lines(call: &str, meter: &Meter, letters: Letters) -> Result<Vec<String>, String> {
    if let Some(frame) = call.strip_prefix("explain ") {
        return explained(&lines(frame, meter, letters)?).map(|line| vec![line]);
    }
    let mut words = Words::of(call);
    let client = match words.word("a call")? {
        "meter" => return prepared(words),
        "clock" => return ticked(words).map(|line| vec![line]),
        "changed" => return changed(words, meter, letters).map(|line| vec![line]),
        client => client,
    };
    let lent = Lent::of(&mut words)?;
    let frames = match client {
        "bytes" => vec![plug::raw(words)?],
        "V" => plug::verification(words, meter)?,
        "H" => plug::han(words, meter, &lent.challenge)?,
        word => return Err(format!("\"{word}\" begins no call")),
    };
    Ok(frames.iter().map(|frame| lent.line(frame, letters)).collect())
}

/// The line that asks why one frame would be refused, in the place of the line that receives it.
fn explained(lines: &[String]) -> Result<String, String> {
    match lines {
        [line] => line.strip_prefix("frame").map(|fields| format!("explain{fields}")),
        _ => None,
    }
    .ok_or("one frame is explained at a time".into())
}

/// What a frame call is lent: the usual, but for what the words say.
struct Lent {
    guk: Vec<u8>,
    authentication: Vec<u8>,
    challenge: Vec<u8>,
    room: usize,
}

impl Lent {
    fn of(words: &mut Words) -> Result<Lent, String> {
        Ok(Lent {
            guk: words.bytes("guk")?.unwrap_or(GUK.into()),
            authentication: words.bytes("ak")?.unwrap_or(AUTHENTICATION.into()),
            challenge: words.bytes("challenge")?.unwrap_or(METER_CHALLENGE.into()),
            room: words.number_or("room", LONGEST_FRAME)?,
        })
    }

    fn line(&self, frame: &[u8], letters: Letters) -> String {
        let [guk, authentication, frame] =
            [&self.guk, &self.authentication, frame].map(|bytes| letters.put(digits(bytes)));
        format!("frame {guk} {authentication} {} {} {frame}", digits(&self.challenge), self.room)
    }
}

/// A new meter with so many registers, all of them columns, and so many rows, one a minute. In minute n the register k has
/// the value 80 k 00 n, in bytes; where fewer are changing, the others keep 80 k 00 00.
fn prepared(mut words: Words) -> Result<Vec<String>, String> {
    let columns: u8 = words.number_or("columns", 0)?;
    let rows: u8 = words.number_or("rows", 0)?;
    let changing: u8 = words.number_or("changing", columns)?;
    words.end()?;
    let name = |k: u8| format!("0100{k:02X}0800FF");
    let value = |k: u8, n: u8| u32::from_be_bytes([0x80, k, 0, n]);
    let mut lines = vec![NEW_METER.to_string()];
    if columns > 0 {
        let registers: String = (0..columns).map(|k| format!(" {}:1:FF:1E:{}", name(k), value(k, 0))).collect();
        let names: String = (0..columns).map(|k| format!(" {}", name(k))).collect();
        lines.extend([format!("registers{registers}"), format!("columns{names}")]);
    }
    for n in 1..=rows {
        lines.extend((0..changing).map(|k| format!("value {} {}", name(k), value(k, n))));
        lines.push(tick(&clock("2017-01-01", &format!("0:{n}:0"))?));
    }
    Ok(lines)
}

fn tick(clock: &Clock) -> String {
    format!("tick {}", hex(clock))
}

/// A tick by its date and time of day.
fn ticked(mut words: Words) -> Result<String, String> {
    let clock = clock(words.word("a date")?, words.word("a time of day")?)?;
    words.end().map(|()| tick(&clock))
}

/// The meter's own image with a field changed, handed in.
fn changed(mut words: Words, meter: &Meter, letters: Letters) -> Result<String, String> {
    let mut meter = meter.clone();
    meter.period = words.number_or("period", meter.period)?;
    meter.record_number = words.number_or("number", meter.record_number)?;
    meter.han.sent = words.number_or("sent", meter.han.sent)?;
    let mut image = image::write(&meter, &[0; image::SIZE]);
    fields::change(&mut words, &mut image)?;
    if let Some(change) = words.option("at") {
        overlay(&mut image, change)?;
    }
    words.end()?;
    Ok(format!("image {}", letters.put(hex(&image))))
}
