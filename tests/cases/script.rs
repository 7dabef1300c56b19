//! The lines of the script program (docs/SCRIPT.md) that can be read, and what the second meter answers to them. Where a
//! line cannot be read, and at which column, is not decided here: such cases bring their answers along.

use crate::hexadecimal::{hex, unhex};
use reference::explanation::Explanation;
use reference::image;
use reference::library::{Call, State};
use reference::meter::Meter;
use reference::receive::Outcome;

/// What a call on the meter can begin with.
pub const VERBS: [&str; 11] =
    ["new", "registers", "value", "columns", "period", "tick", "p5", "power", "frame", "image", "dump"];

const LONGEST_LINE: usize = 32768;
const LONGEST_LIST: usize = 40;
const LONGEST_STRING: usize = 4096;
const LARGEST_PERIOD: u32 = 65535;

/// An empty line or a comment: it answers nothing.
pub fn is_silent(line: &[u8]) -> bool {
    line.len() <= LONGEST_LINE && (line.is_empty() || line[0] == b'#')
}

/// A line that can be read.
pub enum Line {
    Call(Call),
    /// A frame call that is not made: why it would be refused.
    Explain(Call),
    Image(Vec<u8>),
    Dump,
}

/// The line of these characters; `None` where it cannot be read.
pub fn read(line: &str) -> Option<Line> {
    if line.len() > LONGEST_LINE {
        return None;
    }
    let mut fields = line.split(' ');
    let verb = fields.next()?;
    let fields: Vec<&str> = fields.collect();
    match (verb, &fields[..]) {
        ("image", [image]) => string(image).map(Line::Image),
        ("dump", []) => Some(Line::Dump),
        ("explain", fields) => call("frame", fields).map(Line::Explain),
        (_, fields) => call(verb, fields).map(Line::Call),
    }
}

fn call(verb: &str, fields: &[&str]) -> Option<Call> {
    Some(match (verb, fields) {
        ("new", [device, title, v_title, h_title]) => Call::New {
            device: fixed(device, 16)?,
            title: fixed(title, 8)?,
            v_title: fixed(v_title, 8)?,
            h_title: fixed(h_title, 8)?,
        },
        ("registers", list) => Call::GiveRegisters(items(list, register)?),
        ("value", [name, value]) => Call::SetValue(fixed(name, 6)?, decimal(value, u32::MAX)?),
        ("columns", list) => Call::SetColumns(items(list, |name| fixed(name, 6))?),
        ("period", [period]) => Call::SetPeriod(decimal(period, LARGEST_PERIOD)?),
        ("tick", [clock]) => Call::Tick(fixed(clock, 12)?),
        ("p5", [held]) => Call::SetP5(flag(held)?.into()),
        ("power", []) => Call::PowerUp,
        ("frame", [guk, authentication, challenge, room, frame]) => Call::Receive {
            guk: string(guk)?,
            authentication: string(authentication)?,
            challenge: string(challenge)?,
            room: decimal(room, LONGEST_STRING as u32)? as usize,
            frame: string(frame)?,
        },
        _ => return None,
    })
}

fn fixed(field: &str, length: usize) -> Option<Vec<u8>> {
    unhex(field).filter(|bytes| bytes.len() == length)
}

fn string(field: &str) -> Option<Vec<u8>> {
    match field {
        "-" => Some(vec![]),
        _ => unhex(field).filter(|bytes| (1..=LONGEST_STRING).contains(&bytes.len())),
    }
}

fn decimal(field: &str, most: u32) -> Option<u32> {
    let digits = field.bytes().all(|byte| byte.is_ascii_digit());
    field.parse().ok().filter(|&number| digits && number <= most)
}

fn flag(field: &str) -> Option<u8> {
    match field {
        "0" => Some(0),
        "1" => Some(1),
        _ => None,
    }
}

/// A register as the record of thirteen bytes that the library takes.
fn register(field: &str) -> Option<Vec<u8>> {
    let [name, right, scaler, unit, value] = field.split(':').collect::<Vec<_>>()[..] else { return None };
    let value = decimal(value, u32::MAX)?.to_be_bytes().to_vec();
    Some([fixed(name, 6)?, vec![flag(right)?], fixed(scaler, 1)?, fixed(unit, 1)?, value].concat())
}

fn items(list: &[&str], item: impl Fn(&str) -> Option<Vec<u8>>) -> Option<Vec<u8>> {
    let items = list.iter().map(|field| item(field)).collect::<Option<Vec<_>>>()?;
    (items.len() <= LONGEST_LIST).then(|| items.concat())
}

/// A number and a reply as the script program writes them.
pub fn written(number: u8, reply: &[u8]) -> String {
    format!("{number} {}", digits(reply))
}

/// A byte string as a field: no bytes are a dash.
pub fn digits(bytes: &[u8]) -> String {
    if bytes.is_empty() {
        "-".into()
    } else {
        hex(bytes)
    }
}

/// The script program with the second meter in it.
#[derive(Clone)]
pub struct Program {
    state: State,
}

impl Program {
    /// Before the first `new`: a new meter whose name and titles are all zero.
    pub fn started() -> Program {
        Program { state: State::Held(Box::new(Meter::new([0; 16], [0; 8], [0; 8], [0; 8]))) }
    }

    /// The current meter.
    pub fn meter(&self) -> &Meter {
        self.state.meter().expect("an image that is none is not taken")
    }

    /// What a line comes to.
    pub fn answer(&mut self, line: &Line) -> Outcome {
        match line {
            Line::Call(call) => self.state.answer(call),
            Line::Explain(call) => {
                let explanation = self.state.explain(call).expect("a frame is explained");
                Outcome::silent(explanation.number, explanation.name)
            }
            Line::Image(image) => self.take(image),
            Line::Dump => {
                let image = image::write(self.meter(), &[0; image::SIZE]);
                Outcome { reply: image, ..Outcome::silent(0, "image") }
            }
        }
    }

    /// The explanation of the frame that a line has, if it has one, by the meter as it is now.
    pub fn explain(&self, line: &Line) -> Option<Explanation> {
        match line {
            Line::Call(call) | Line::Explain(call) => self.state.explain(call),
            Line::Image(_) | Line::Dump => None,
        }
    }

    /// The meter becomes that of an image, sound or not.
    fn take(&mut self, image: &[u8]) -> Outcome {
        match State::of(image) {
            State::Refused(refusal) => Outcome::silent(refusal, "no image"),
            taken => {
                self.state = taken;
                Outcome::silent(0, "image taken")
            }
        }
    }
}
