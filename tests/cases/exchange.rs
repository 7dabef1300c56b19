//! Calls as lines of the script program, and what has to be answered to them, from the source: each call as its lines, each line
//! with the answer of the second meter.

use crate::calls::{self, Letters};
use crate::hexadecimal::hex;
use crate::script::{self, Line, Program};
use crate::source::{self, Entry, Expected, Step};
use reference::explanation::Explanation;
use reference::receive::Outcome;

/// The number of a request that is denied.
const DENIED: u8 = 13;

/// The second meter's answer to a line; where the line has a frame, with its explanation.
struct Answer {
    outcome: Outcome,
    explanation: Option<Explanation>,
    /// The line asks for the explanation, and the frame is not received.
    explains: bool,
}

impl Answer {
    /// This answer, where it is the expected one.
    fn is(self, expected: Expected) -> Result<Answer, String> {
        let number = match expected {
            Expected::Number(_) | Expected::Code(_) if self.explains => {
                return Err("an explanation is expected as NUMBER NAME PLACE".into());
            }
            Expected::Number(number) | Expected::Explanation(number, _) => number,
            Expected::Code(_) => DENIED,
            _ => return Err("a line that is not a call stands in quotes".into()),
        };
        let told = self.explanation.map_or("no explanation".into(), |explanation| explanation.to_string());
        match expected {
            Expected::Explanation(_, due) if told != due => Err(format!("the second meter has {told}, not {due}")),
            _ if self.outcome.number != number => {
                Err(format!("the second meter answers {}, not {number}", self.outcome.number))
            }
            Expected::Code(due) if self.denial() != Some(due) => {
                Err(format!("the second meter's result code is {:?}, not {due}", self.denial()))
            }
            _ => Ok(self),
        }
    }

    /// The result code in a sealed answer that denies a GET, a request for a block or an ACTION.
    fn denial(&self) -> Option<u8> {
        match self.outcome.sealed.as_ref()?.plain[..] {
            [0xC4, 0x01, _, 0x01, code] | [0xC7, 0x01, _, code, 0x00] => Some(code),
            [0xC4, 0x02, _, 0x01, _, _, _, _, 0x01, code] => Some(code),
            _ => None,
        }
    }

    /// As the script program writes it.
    fn text(&self) -> String {
        match self.explanation {
            Some(explanation) if self.explains => explanation.to_string(),
            _ => script::written(self.outcome.number, &self.outcome.reply),
        }
    }
}

/// Calls as the script program reads them, and its answers, as far as they are made; how many lines of both there were at
/// the last heading; and the explanation of the last frame.
pub struct Exchange {
    program: Program,
    letters: Letters,
    input: Vec<Vec<u8>>,
    output: Vec<String>,
    headed: (usize, usize),
    pub explanation: Option<Explanation>,
}

impl Exchange {
    pub fn begun(source: &str) -> Exchange {
        let head = format!("# Made by tests/cases/make from {source}: change that source, and make this file again.");
        let input = vec![head.into()];
        let (program, letters) = (Program::started(), Letters::Large);
        Exchange { program, letters, input, output: vec![], headed: (1, 0), explanation: None }
    }

    /// Adds what one line of the source says.
    pub fn add(&mut self, line: &str) -> Result<(), String> {
        match source::read(line)? {
            Entry::Blank => {}
            Entry::Heading(heading) => {
                self.input.extend([vec![], format!("# == {heading}").into()]);
                self.headed = (self.input.len(), self.output.len());
            }
            Entry::Step(step) => self.step(&step)?,
        }
        Ok(())
    }

    /// A call in words that has no name has its words for one.
    fn step(&mut self, &Step { name, call, expected }: &Step) -> Result<(), String> {
        match call {
            "" => self.comment(name, None),
            "letters large" => self.letters = Letters::Large,
            "letters small" => self.letters = Letters::Small,
            "prepared" => self.prepared()?,
            _ if call.contains('"') => self.quoted(name, source::quoted(call)?, expected)?,
            _ if calls::is_line(call) => self.answered(name, vec![call.into()], expected)?,
            _ => {
                let lines = calls::lines(call, self.program.meter(), self.letters)?;
                self.answered(name.or(Some(call)), lines, expected)?;
            }
        }
        Ok(())
    }

    /// The calls since the heading have prepared the meter: in their place stands its image. What was refused is no preparation.
    fn prepared(&mut self) -> Result<(), String> {
        let (input, output) = self.headed;
        if self.output[output..].iter().any(|answer| !answer.starts_with("0 ")) {
            return Err("this would leave out a case: a call since the heading was refused".into());
        }
        self.input.truncate(input);
        self.output.truncate(output);
        let image = calls::lines("changed", self.program.meter(), self.letters)?;
        self.answered(None, image, Expected::Number(0))
    }

    /// A name as a comment; a sealed answer stands behind it in its plain form.
    fn comment(&mut self, name: Option<&str>, answer: Option<&Outcome>) {
        let sealed = answer.and_then(|answer| answer.sealed.as_ref());
        let plain = sealed.map(|sealed| format!(" > {}", hex(&sealed.plain))).unwrap_or_default();
        self.input.extend(name.map(|name| format!("# {name}{plain}").into()));
    }

    /// Lines that can be read. The last one answers what is expected, those before it 0.
    fn answered(&mut self, name: Option<&str>, lines: Vec<String>, expected: Expected) -> Result<(), String> {
        let (last, before) = lines.split_last().ok_or("a call has a line")?;
        let mut texts = vec![];
        for line in before {
            texts.push(self.answer(line)?.is(Expected::Number(0))?.text());
        }
        let answer = self.answer(last)?.is(expected)?;
        texts.push(answer.text());
        self.comment(name, Some(&answer.outcome));
        self.input.extend(lines.into_iter().map(String::into_bytes));
        self.output.extend(texts);
        Ok(())
    }

    /// The second meter's answer to a line. It explains a frame before it receives it.
    fn answer(&mut self, line: &str) -> Result<Answer, String> {
        let read = script::read(line).ok_or(format!("this line cannot be read: {line}"))?;
        let explanation = self.program.explain(&read);
        let outcome = self.program.answer(&read);
        self.explanation = explanation.or(self.explanation);
        match explanation {
            Some(told) if told.number != outcome.number => {
                Err(format!("the second meter answers {}, and explains it by {told}", outcome.number))
            }
            _ => Ok(Answer { outcome, explanation, explains: matches!(read, Line::Explain(_)) }),
        }
    }

    /// A line as it stands; where it is no call, with the answer that the source brings along.
    fn quoted(&mut self, name: Option<&str>, line: Vec<u8>, expected: Expected) -> Result<(), String> {
        let text = std::str::from_utf8(&line).ok();
        match expected {
            Expected::Number(_) | Expected::Code(_) | Expected::Explanation(..) => {
                let text = text.ok_or("this line is no text")?.into();
                return self.answered(name, vec![text], expected);
            }
            _ if line.contains(&b'\n') => return Err("a line has no line feed in it".into()),
            Expected::Nothing if script::is_silent(&line) => {}
            Expected::Nothing => return Err("a line that answers nothing is empty or begins with #".into()),
            Expected::Column(_) if script::is_silent(&line) => return Err("this line answers nothing".into()),
            Expected::Column(_) if text.and_then(script::read).is_some() => return Err("this line can be read".into()),
            Expected::Column(column) => self.output.push(format!("? {column}")),
        }
        self.comment(name, None);
        self.input.push(line);
        Ok(())
    }

    /// Both files whole. The last line of the input has no line feed: it is the one that the end cuts off.
    pub fn files(self) -> [Vec<u8>; 2] {
        [self.input.join(&b'\n'), (self.output.join("\n") + "\n").into()]
    }
}
