//! The night of the program `day`: its play, with frames in the places of words, and what it has to print. Which number a
//! frame has, what is answered, which rows there are and whether an answer tells of values is the second meter's to say.

use crate::calls::{self, Letters};
use crate::hexadecimal::{hex, unhex};
use crate::plug::{AUTHENTICATION, DEDICATED, GUK};
use crate::script::{self, Line, Program};
use crate::table;
use reference::aes::Block;
use reference::envelope::Sender;
use reference::library::Call;
use reference::meter::Row;
use reference::receive::Outcome;
use std::collections::HashMap;

/// By how much each value of the twin is greater.
const GREATER: u32 = 1_000_000;

/// The room that is lent for a reply.
const ROOM: usize = 779;

/// The tag of an envelope around the answer to a request, which is closed with the dedicated key.
const ANSWER: u8 = 0xD4;

/// What the numbers of frame calls are called.
const MEANINGS: [&str; 14] = [
    "accepted",
    "silence: too little room for a reply",
    "silence: a key or the challenge is not whole",
    "silence: the meter's state is not sound",
    "silence: not a whole frame",
    "silence: the frame itself is a rejection",
    "silence: the seal is not right",
    "silence: the counter's step is not 1 to 180",
    "refused: the frame is too long",
    "refused: the frame is bad",
    "refused: there is no link",
    "refused: the association is not accepted",
    "refused: malformed, unknown, or not now",
    "refused: the read or the action is denied",
];

/// The meter and its twin, a meter that is alike but for its values.
#[derive(Clone)]
struct Meters {
    meter: Program,
    twin: Program,
}

/// An act of the play: its lines, and the meters at its end.
struct Act {
    name: String,
    lines: Vec<String>,
    end: Meters,
}

pub struct Night {
    acts: Vec<Act>,
    now: Meters,
    challenge: Vec<u8>,
    /// Frames that were sent, by what was asked.
    sent: HashMap<String, Vec<u8>>,
    answer: Outcome,
    /// The rows that the display has read last.
    kept: Vec<Row>,
    told: bool,
    printed: String,
}

impl Night {
    pub fn begun() -> Night {
        let now = Meters { meter: Program::started(), twin: Program::started() };
        let answer = Outcome::silent(0, "nothing was asked");
        Night {
            acts: vec![],
            now,
            challenge: vec![],
            sent: HashMap::new(),
            answer,
            kept: vec![],
            told: false,
            printed: String::new(),
        }
    }

    /// One line of the source.
    pub fn add(&mut self, line: &str) -> Result<(), String> {
        match line.bytes().next() {
            None | Some(b'#') => Ok(()),
            Some(b'[') => self.begin(line),
            Some(mark) => self.play(mark, line),
        }
    }

    /// `[ACT]`, or `[ACT after ACT]`.
    fn begin(&mut self, line: &str) -> Result<(), String> {
        let heading = line.strip_prefix('[').and_then(|rest| rest.strip_suffix(']')).ok_or("an act is [NAME]")?;
        let (name, after) = heading.split_once(" after ").map_or((heading, None), |(name, act)| (name, Some(act)));
        if let Some(after) = after {
            let act = self.acts.iter().find(|act| act.name == after).ok_or(format!("there is no act {after}"))?;
            self.now = act.end.clone();
        }
        self.acts.push(Act { name: name.into(), lines: vec![], end: self.now.clone() });
        Ok(())
    }

    fn play(&mut self, mark: u8, line: &str) -> Result<(), String> {
        let fields: Vec<&str> = line.split('|').collect();
        let played = match (mark, &fields[..]) {
            (b'>', _) => self.print(&line[1..], line),
            (b'?', [_, asked, words]) => self.ask(asked, words)?,
            (b'!', [_, challenge]) => self.lend(challenge, line)?,
            (b'%', [_, words, otherwise, kind]) => self.hear(words, otherwise, kind)?,
            (b'*', [_]) => self.print(&table::of(&self.kept), line),
            (b':', [_, words, _, number]) if unhex(number) == Some(vec![self.answer.number]) => self.print(words, line),
            (b'/', [_, words]) => self.print(words, line),
            (b'$', [_, words, otherwise]) => self.print(if self.told { otherwise } else { words }, line),
            (b'a'..=b'z', _) => return self.call(line),
            _ => return Err("this line is none of a play, or does not happen".into()),
        };
        self.put(played)
    }

    fn put(&mut self, line: String) -> Result<(), String> {
        let act = self.acts.last_mut().ok_or("the first line names an act")?;
        act.lines.push(line);
        act.end = self.now.clone();
        Ok(())
    }

    fn print(&mut self, text: &str, line: &str) -> String {
        self.printed += text;
        self.printed.push('\n');
        line.into()
    }

    /// A call of the owner, which has to be accepted; the twin's values are greater.
    fn call(&mut self, call: &str) -> Result<(), String> {
        let lines = match calls::is_line(call) {
            true => vec![call.to_string()],
            false => calls::lines(call, self.now.meter.meter(), Letters::Large)?,
        };
        for line in lines {
            let read = script::read(&line).ok_or("this call cannot be read")?;
            let numbers = [self.now.meter.answer(&read).number, self.now.twin.answer(&greater(read)).number];
            if numbers != [0, 0] {
                return Err(format!("the second meter refuses this call by {}", numbers[0]));
            }
            self.put(line)?;
        }
        Ok(())
    }

    /// Another challenge is lent. Where it is a new one, a stranger begins, whom nothing has been told.
    fn lend(&mut self, challenge: &str, line: &str) -> Result<String, String> {
        let challenge = unhex(challenge).ok_or("a challenge is eight bytes")?;
        self.told &= self.challenge == challenge;
        self.challenge = challenge;
        Ok(line.into())
    }

    /// A frame to both, and the line that tells what came of it.
    fn ask(&mut self, asked: &str, words: &str) -> Result<String, String> {
        let frame = match words.strip_prefix("again ") {
            Some(before) => self.sent.get(before).ok_or(format!("\"{before}\" was not asked"))?.clone(),
            None => self.frame(words)?,
        };
        let call = Line::Call(Call::Receive {
            frame: frame.clone(),
            guk: GUK.into(),
            authentication: AUTHENTICATION.into(),
            challenge: self.challenge.clone(),
            room: ROOM,
        });
        self.answer = self.now.meter.answer(&call);
        let twin = self.now.twin.answer(&call);
        let tells = (self.answer.number, &self.answer.reply) != (twin.number, &twin.reply);
        self.told |= tells;
        let line = format!("?|   {asked:<46}|{}", hex(&frame));
        self.sent.entry(asked.into()).or_insert(frame);
        let number = self.answer.number;
        let told = if tells { "something" } else { "nothing" };
        Ok(self.print(&format!("   {asked:<46}{number:>3}  {:<46}{told}", MEANINGS[number as usize]), &line))
    }

    /// The one frame that words stand for.
    fn frame(&self, words: &str) -> Result<Vec<u8>, String> {
        let lines = calls::lines(words, self.now.meter.meter(), Letters::Large)?;
        match lines.iter().map(|line| script::read(line)).collect::<Vec<_>>().pop() {
            Some(Some(Line::Call(Call::Receive { frame, .. }))) if lines.len() == 1 => Ok(frame),
            _ => Err("these words are not one frame".into()),
        }
    }

    /// What the display waits for is what the second meter has answered: all of it, or its beginning and the text of an
    /// envelope. Any text will do where it is kept for its rows.
    fn hear(&mut self, words: &str, otherwise: &str, kind: &str) -> Result<String, String> {
        let inside = self.answer.reply[1..self.answer.reply.len() - 1].to_vec();
        let (place, tag, bytes) = match kind.split_once(' ') {
            None if kind == "whole" => (inside.len(), String::new(), inside),
            Some((kind @ ("sealed" | "kept"), tag)) => {
                let (place, mut text) = self.opened(&inside, tag)?;
                if kind == "kept" {
                    self.kept = table::rows_in(&text).ok_or("what is kept is an answer with rows")?;
                    text.clear();
                }
                (place, tag.to_string(), [&inside[..place], &text].concat())
            }
            _ => return Err("an answer is whole, sealed TAG or kept TAG".into()),
        };
        if !words.is_empty() {
            self.print(words, words);
        }
        Ok(format!("%|{words}|{otherwise}|{place:02X}|{tag}|{}", hex(&bytes)))
    }

    /// Where the meter's envelope stands in its answer, and the text in it.
    fn opened(&self, inside: &[u8], tag: &str) -> Result<(usize, Vec<u8>), String> {
        let Some([tag]) = unhex(tag).and_then(|tag| <[u8; 1]>::try_from(tag).ok()) else {
            return Err("a tag is one byte".into());
        };
        let key: Block = if tag == ANSWER { DEDICATED } else { GUK };
        let sender = Sender { title: self.now.meter.meter().title, key, authentication: AUTHENTICATION };
        let apdu = &inside[..inside.len() - 2];
        let found = (0..apdu.len()).find_map(|place| Some((place, sender.open(tag, &apdu[place..])?.1)));
        found.ok_or("the second meter has sent no such envelope".into())
    }

    /// The play as a module of the program, and what the program prints.
    pub fn files(self) -> [Vec<u8>; 2] {
        let title = self.now.meter.meter().title;
        let constants = [("GUK", &GUK[..]), ("AK", &AUTHENTICATION), ("DEDICATED", &DEDICATED), ("TITLE", &title)];
        let constants: String = constants.iter().map(|(name, bytes)| constant(name, bytes)).collect();
        let acts: String = self.acts.iter().map(|played| act(&played.name, &played.lines)).collect();
        let play = format!("{HEAD}{constants}{acts}");
        [play.into_bytes(), self.printed.into_bytes()]
    }
}

/// The twin's call.
fn greater(line: Line) -> Line {
    match line {
        Line::Call(Call::SetValue(name, value)) => Line::Call(Call::SetValue(name, value + GREATER)),
        other => other,
    }
}

const HEAD: &str = "// The acts of the night, with what the owner lends and the home display has. Made by tests/cases/make from tests/cases/day.txt;
// main.rt says what the marks mean.
";

/// A constant of bytes, broken as the layout of a source file wants it.
fn constant(name: &str, bytes: &[u8]) -> String {
    let text: String = bytes.iter().map(|byte| format!("\\x{byte:02X}")).collect();
    let line = format!("pub const {name}: [u8; {}] = *b\"{text}\";", bytes.len());
    match line.len() {
        0..=100 => format!("\n{line}\n"),
        _ => format!("\n{}\n", line.replacen("= ", "=\n    ", 1)),
    }
}

/// An act as a constant: its lines are one text.
fn act(name: &str, lines: &[String]) -> String {
    let text: String = lines.iter().map(|line| format!("    {}\\n\\\n", escaped(line))).collect();
    format!("\npub const {}: &[u8] = b\"\\\n{text}    \";\n", name.to_uppercase())
}

fn escaped(line: &str) -> String {
    line.replace('\\', "\\\\").replace('"', "\\\"")
}
