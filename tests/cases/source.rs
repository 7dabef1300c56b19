//! A line of the source: a heading, a name, a call, and what the call has to come to (README.md).

use crate::hexadecimal::unhex;

/// What a line of the script program has to come to.
#[derive(Clone, Copy)]
pub enum Expected<'a> {
    /// The second meter answers this number.
    Number(u8),
    /// The second meter denies the request, in an envelope, by this result code.
    Code(u8),
    /// The second meter explains the frame so, and answers this number where it receives it.
    Explanation(u8, &'a str),
    /// The line cannot be read from this column on.
    Column(usize),
    /// A comment: no answer.
    Nothing,
}

pub enum Entry<'a> {
    Blank,
    Heading(&'a str),
    Step(Step<'a>),
}

/// A name, a call, or both; the name goes for the calls below it, too.
pub struct Step<'a> {
    pub name: Option<&'a str>,
    pub call: &'a str,
    pub expected: Expected<'a>,
}

pub fn read(line: &str) -> Result<Entry<'_>, String> {
    let line = line.trim();
    if line.is_empty() {
        return Ok(Entry::Blank);
    }
    if let Some(heading) = line.strip_prefix("# ") {
        return Ok(Entry::Heading(heading));
    }
    let (name, text) = named(line);
    let (call, expected) = expectation(text)?;
    Ok(Entry::Step(Step { name, call, expected }))
}

/// The name before the first colon that a space or the end follows, and what stands behind it.
fn named(line: &str) -> (Option<&str>, &str) {
    let unquoted = line.find('"').unwrap_or(line.len());
    match line[..unquoted].find(": ") {
        Some(end) => (Some(&line[..end]), &line[end + 2..]),
        None => match line.strip_suffix(':') {
            Some(name) => (Some(name), ""),
            None => (None, line),
        },
    }
}

/// The call, and what stands behind the last ` > `: no number is 0.
fn expectation(text: &str) -> Result<(&str, Expected<'_>), String> {
    let behind_quotes = text.rfind('"').map_or(0, |last| last + 1);
    let Some(at) = text[behind_quotes..].rfind(" > ") else { return Ok((text, Expected::Number(0))) };
    let (call, wanted) = (&text[..behind_quotes + at], text[behind_quotes + at + 3..].trim());
    let expected = match wanted.split_once(' ') {
        None if wanted == "nothing" => Some(Expected::Nothing),
        None => wanted.parse().ok().map(Expected::Number),
        Some(("code", code)) => code.parse().ok().map(Expected::Code),
        Some(("?", column)) => column.parse().ok().map(Expected::Column),
        Some((number, _)) => number.parse().ok().map(|number| Expected::Explanation(number, wanted)),
    };
    let forms = "no number, `NUMBER NAME PLACE`, `code CODE`, `? COLUMN` or `nothing`";
    Ok((call, expected.ok_or(format!("\"{wanted}\" is {forms}"))?))
}

/// The bytes of a line in quotes: pieces `"TEXT"` or `COUNT*"TEXT"`.
pub fn quoted(text: &str) -> Result<Vec<u8>, String> {
    let mut bytes = vec![];
    let mut left = text.trim();
    while !left.is_empty() {
        let (count, begun) = left.split_once('"').ok_or("a quote is missing")?;
        let (piece, rest) = begun.split_once('"').ok_or("the second quote is missing")?;
        let count = match count.trim() {
            "" => 1,
            count => count.strip_suffix('*').and_then(|count| count.parse().ok()).ok_or("no COUNT*\"TEXT\"")?,
        };
        for turn in 0..count {
            bytes.extend(unescaped(&counted(piece, turn))?);
        }
        left = rest.trim_start();
    }
    Ok(bytes)
}

/// `{x}` and `{d}` stand for the number of the turn, from 0 on, in two hexadecimal digits and in decimal.
fn counted(piece: &str, turn: usize) -> String {
    piece.replace("{x}", &format!("{turn:02X}")).replace("{d}", &turn.to_string())
}

/// `\xNN` stands for that byte.
fn unescaped(piece: &str) -> Result<Vec<u8>, String> {
    let mut parts = piece.split("\\x");
    let mut bytes = parts.next().unwrap_or("").as_bytes().to_vec();
    for part in parts {
        let byte = part.get(..2).and_then(unhex).ok_or("\\x needs two hexadecimal digits")?;
        bytes.extend(byte);
        bytes.extend(part[2..].as_bytes());
    }
    Ok(bytes)
}
