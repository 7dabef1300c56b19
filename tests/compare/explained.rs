//! Explanations in bulk. The library does not explain, so frame calls of a run become lines of the script program, and its
//! answers are held to the second meter's.

use crate::counters;
use cases::hexadecimal::hex;
use cases::script::digits;
use reference::explanation::{Explanation, NONE, TESTS};
use reference::library::{Call, State};
use std::collections::BTreeMap;
use std::fs::{self, File};
use std::path::Path;
use std::process::Command;

/// What the script program answers to an image that it takes.
const TAKEN: &str = "0 -";

/// Lines of the script program that it was not yet asked, with the answers that are due, and the image that it holds after
/// them; how often each test was named; and the counters around the overflow.
#[derive(Default)]
pub struct Explained {
    lines: Vec<String>,
    due: Vec<String>,
    held: Vec<u8>,
    names: BTreeMap<&'static str, usize>,
    counters: counters::Met,
}

impl Explained {
    /// How many frames there are.
    pub fn frames(&self) -> usize {
        self.names.values().sum()
    }

    /// Adds a frame call on the state of this image.
    pub fn add(&mut self, image: &[u8], call: &Call, explanation: Explanation) {
        let Call::Receive { frame, guk, authentication, challenge, room } = call else { return };
        if self.held != image {
            self.held = image.to_vec();
            self.lines.push(format!("image {}", hex(image)));
            self.due.push(TAKEN.into());
        }
        let [guk, ak, challenge, frame] = [guk, authentication, challenge, frame].map(|bytes| digits(bytes));
        self.lines.push(format!("explain {guk} {ak} {challenge} {room} {frame}"));
        self.due.push(explanation.to_string());
        *self.names.entry(explanation.name).or_default() += 1;
        if let Some(meter) = State::of(image).meter() {
            self.counters.add(meter, call, explanation);
        }
    }

    /// Has the program answer the lines, which stay in this folder with its answers; an error tells of the first difference.
    pub fn compare(&mut self, program: &str, folder: &Path) -> Result<(), String> {
        let (input, output) = (folder.join("explained.script"), folder.join("explained.answers"));
        let answered = answers(program, &input, &output, &self.lines).map_err(|error| format!("{program}: {error}"))?;
        let mut answers = answered.lines();
        for (number, (line, due)) in self.lines.iter().zip(&self.due).enumerate() {
            let answer = answers.next().unwrap_or("nothing");
            if answer != due {
                return Err(self.told(number, line, due, answer));
            }
        }
        if let Some(answer) = answers.next() {
            return Err(format!("DIFFERENCE: {program} answers more than it was asked: {answer}"));
        }
        let (names, counters) = (std::mem::take(&mut self.names), std::mem::take(&mut self.counters));
        *self = Explained { names, counters, ..Explained::default() };
        Ok(())
    }

    /// All that is needed to go through a difference by hand: the last image before the line, and the line.
    fn told(&self, number: usize, line: &str, due: &str, answer: &str) -> String {
        let image = self.lines[..number].iter().rev().find(|line| line.starts_with("image "));
        let lines = [
            format!("DIFFERENCE: the script program answers {answer}, the second meter {due}"),
            format!("line {} of the lines: {line}", number + 1),
            image.cloned().unwrap_or_default(),
        ];
        lines.join("\n")
    }

    pub fn print(&self) {
        for (number, name) in all_names() {
            println!("{:>9}  {number:>3}  {name}", self.named(name));
        }
        self.counters.print();
        println!("{:>9}  frames explained by the script program", self.frames());
    }

    fn named(&self, name: &str) -> usize {
        self.names.get(name).copied().unwrap_or(0)
    }

    /// The names that never came up, but for that of the one test which no state of a meter fails first, and counters around
    /// the overflow that never came.
    pub fn missing(&self) -> Vec<String> {
        let is_missing = |&(_, name): &(u8, &str)| self.named(name) == 0 && name != NEVER_FIRST;
        let names = all_names().filter(is_missing).map(|(_, name)| name.into());
        names.chain(self.counters.missing()).collect()
    }
}

/// A row above the fifteenth has no clock, and clocks are tested before the count.
const NEVER_FIRST: &str = "row-count";

fn all_names() -> impl Iterator<Item = (u8, &'static str)> {
    TESTS.iter().map(|&(number, name, _)| (number, name)).chain([(0, NONE)])
}

/// What the program writes where it reads these lines.
fn answers(program: &str, input: &Path, output: &Path, lines: &[String]) -> std::io::Result<String> {
    fs::write(input, lines.join("\n") + "\n")?;
    let status = Command::new(program).stdin(File::open(input)?).stdout(File::create(output)?).status()?;
    match status.success() {
        true => fs::read_to_string(output),
        false => Err(std::io::Error::other(status.to_string())),
    }
}
