//! Every line of the script program's cases, put to the library and to the second meter; and each frame of them with each
//! of its bits changed, on the state before it.

use crate::bench::Bench;
use crate::bits;
use crate::random::Random;
use cases::script::{self, Line, Program};
use reference::image;
use reference::library::{Call, State};
use std::collections::BTreeMap;

/// What reply rooms hold and where buffers begin comes from this seed.
const SEED: u64 = 1;

pub struct Replay {
    random: Random,
    bench: Bench,
    /// The last comment, which names the case.
    name: String,
    lines: usize,
    unread: usize,
    explained: usize,
    frames: usize,
    /// How many calls with a bit changed came to each number.
    changed: BTreeMap<u8, usize>,
}

/// Replays the input of the script program, of which the output is known; an error tells of the first difference.
pub fn replayed(input: &[u8], output: &str) -> Result<Replay, String> {
    let mut replay = Replay {
        random: Random::new(SEED),
        bench: Bench::new(image::write(Program::started().meter(), &[0; image::SIZE])),
        name: String::new(),
        lines: 0,
        unread: 0,
        explained: 0,
        frames: 0,
        changed: BTreeMap::new(),
    };
    let mut answers = output.lines();
    for (number, line) in input.split(|&byte| byte == b'\n').enumerate() {
        if script::is_silent(line) {
            replay.name = String::from_utf8_lossy(line).into_owned();
            continue;
        }
        let answer = answers.next().ok_or("there are fewer answers than lines")?;
        let compared = replay.line(line, answer);
        compared.map_err(|told| format!("{told}\nline {} of the cases, {}", number + 1, replay.name))?;
    }
    match answers.next() {
        None => Ok(replay),
        Some(_) => Err("there are more answers than lines".into()),
    }
}

impl Replay {
    fn line(&mut self, line: &[u8], answer: &str) -> Result<(), String> {
        if answer.starts_with('?') {
            self.unread += 1;
            return Ok(());
        }
        self.lines += 1;
        let line =
            std::str::from_utf8(line).ok().and_then(script::read).ok_or("a line that cannot be read is answered")?;
        let answered = match &line {
            Line::Call(call) => self.call(call)?,
            Line::Image(image) => self.image(image)?,
            Line::Explain(call) => self.explained(call)?,
            Line::Dump => self.dumped(),
        };
        match answered == answer {
            true => Ok(()),
            false => Err(format!("DIFFERENCE: the cases have {answer}, this is {answered}")),
        }
    }

    fn call(&mut self, call: &Call) -> Result<String, String> {
        self.every_bit(call)?;
        let outcome = self.bench.call(&mut self.random, call)?.outcome;
        Ok(script::written(outcome.number, &outcome.reply))
    }

    /// A frame is explained: by the number that it has from the library, where the library receives it on a copy.
    fn explained(&mut self, call: &Call) -> Result<String, String> {
        self.explained += 1;
        let agreement = self.bench.clone().call(&mut self.random, call)?;
        agreement.explanation.map(|explanation| explanation.to_string()).ok_or("no state explains this frame".into())
    }

    /// An image is taken as the state buffer. One that is none is refused by every call; the state buffer stays.
    fn image(&mut self, image: &[u8]) -> Result<String, String> {
        let mut bench = Bench::new(image.to_vec());
        let number = match bench.state {
            State::Held(_) => {
                self.bench = bench;
                0
            }
            State::Refused(_) => bench.call(&mut self.random, &Call::PowerUp)?.outcome.number,
        };
        Ok(script::written(number, &[]))
    }

    /// The image of the meter in the library's state buffer.
    fn dumped(&self) -> String {
        let state = State::of(&self.bench.image);
        let image = state.meter().map(|meter| image::write(meter, &[0; image::SIZE]));
        script::written(0, &image.unwrap_or_default())
    }

    /// A frame call with each bit of its frame changed, each on the state as it is now.
    fn every_bit(&mut self, call: &Call) -> Result<(), String> {
        let Call::Receive { frame, .. } = call else { return Ok(()) };
        self.frames += 1;
        for bit in 0..frame.len() * 8 {
            for changed in bits::changed(frame, bit) {
                let mut call = call.clone();
                if let Call::Receive { frame, .. } = &mut call {
                    *frame = changed;
                }
                let mut bench = self.bench.clone();
                let compared = bench.call(&mut self.random, &call);
                let outcome = compared.map_err(|told| format!("{told}\nbit {bit} of the frame is changed"))?.outcome;
                *self.changed.entry(outcome.number).or_default() += 1;
            }
        }
        Ok(())
    }

    pub fn print(&self) {
        for (number, count) in &self.changed {
            println!("{count:>9}  {number:>3}  with a bit of a frame changed");
        }
        let changed: usize = self.changed.values().sum();
        println!("{:>9}  lines of the cases replayed, {} passed over that cannot be read", self.lines, self.unread);
        println!("{:>9}  of them explain a frame", self.explained);
        println!("{changed:>9}  calls with a bit changed, of {} frames", self.frames);
    }
}
