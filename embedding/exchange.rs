//! Runs an exchange from standard input over the static library, and compares: each line is 'name: frame > number reply', the
//! frames in hex with spaces, the reply '-' where nothing goes out. Prints one line for each call; ends with 1 at a difference, at a
//! line of another form, and where there is no line. Then a night's quarter hours by the owner's calls, to see each answer.

mod birlimock;

use birlimock::{layout, Lent, Meter, REPLY_ROOM};
use std::io::BufRead;

fn hex(text: &str) -> Option<Vec<u8>> {
    if text == "-" {
        return Some(Vec::new());
    }
    text.split_whitespace().map(|pair| u8::from_str_radix(pair, 16).ok()).collect()
}

struct Line {
    name: String,
    frame: Vec<u8>,
    number: u8,
    reply: Vec<u8>,
}

fn line_of(text: &str) -> Option<Line> {
    let (name, rest) = text.split_once(':')?;
    let (frame, answer) = rest.split_once('>')?;
    let (number, reply) = answer.trim().split_once(' ')?;
    Some(Line { name: name.to_string(), frame: hex(frame)?, number: number.parse().ok()?, reply: hex(reply)? })
}

fn run(meter: &mut Meter, line: &Line) -> bool {
    let guk: Vec<u8> = (0x00..0x10).collect();
    let ak: Vec<u8> = (0xD0..0xE0).collect();
    let lent = Lent { guk: &guk, ak: &ak, challenge: b"P6wRJ21F" };
    let mut reply = [0xA5; REPLY_ROOM];
    let (number, sent) = meter.receive(&line.frame, &lent, &mut reply);
    let kept = reply[sent..].iter().all(|b| *b == 0xA5);
    let same = number == line.number && reply[..sent] == line.reply[..] && kept;
    println!("{}: {}, {} bytes: {}", line.name, number, sent, if same { "as expected" } else { "differs" });
    same
}

/// Five due ticks, two of them of one second; gives the record number that the meter then has.
fn owners_calls(meter: &mut Meter) -> Result<u16, u8> {
    let drawn = [1, 0, 1, 8, 0, 255];
    let record = [&drawn[..], &[1, 0, 30], &7u32.to_be_bytes()].concat();
    meter.give_registers(&record)?;
    meter.set_columns(&drawn)?;
    meter.set_period(900)?;
    meter.set_value(&drawn, 8)?;
    for minute in [0, 15, 30, 30, 45] {
        meter.tick(&[0x07, 0xEA, 10, 25, 0xFF, 2, minute, 0, 0xFF, 0x80, 0x00, 0x00])?;
    }
    let number = record_number(meter);
    meter.set_p5(true)?;
    meter.power_up()?;
    Ok(number)
}

/// The record number, as it stands in the state.
fn record_number(meter: &Meter) -> u16 {
    u16::from_be_bytes([meter.state[layout::AT_RECORD_NUMBER], meter.state[layout::AT_RECORD_NUMBER + 1]])
}

fn main() {
    let mut meter = Meter::new(b"TPC1070201000001", b"MMM\x00\x00\xBC\x61\x4E", b"VER\0\0\0\0\0", b"HAN\0\0\0\0\0").expect("a new meter");
    let mut good = birlimock::fits();
    let mut lines = 0;
    for text in std::io::stdin().lock().lines() {
        match line_of(&text.expect("a line of text")) {
            Some(line) => good = run(&mut meter, &line) && good,
            None => good = false,
        }
        lines += 1;
    }
    good = good && lines > 0;
    let answered = owners_calls(&mut meter);
    match answered {
        Ok(number) => println!("owner's calls: all accepted, {number} rows taken"),
        Err(number) => println!("owner's calls: refused by {number}"),
    }
    good = good && answered == Ok(5);
    std::process::exit(if good { 0 } else { 1 });
}
