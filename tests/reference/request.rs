//! GET and ACTION in their normal form, and a request for the next block, read, and their answers written (Green Book; document
//! 01, "Objects and rows"; change request Q-4).

use crate::bytes::{shortest_length, Reader};
use crate::value::Value;

pub type Name = [u8; 6];

/// What both requests have in common: the number is an attribute's or a method's.
pub struct Target {
    pub invoke: u8,
    pub class: u16,
    pub name: Name,
    pub number: u8,
}

pub struct Get {
    pub target: Target,
    pub selector: Option<(u8, Value)>,
}

pub struct Action {
    pub target: Target,
    pub parameter: Option<Value>,
}

fn target(reader: &mut Reader, service: u8) -> Option<Target> {
    reader.fixed(&[service, 0x01])?;
    Some(Target { invoke: reader.byte()?, class: reader.number16()?, name: reader.array()?, number: reader.byte()? })
}

/// A GET, where these bytes are one.
pub fn read_get(apdu: &[u8]) -> Option<Get> {
    let mut reader = Reader::new(apdu);
    let target = target(&mut reader, 0xC0)?;
    let selector = match reader.byte()? {
        0x00 => reader.end().map(|()| None)?,
        0x01 => Some((reader.byte()?, Value::whole(reader.rest())?)),
        _ => return None,
    };
    Some(Get { target, selector })
}

/// A request for the block behind the one of this number.
pub struct Next {
    pub invoke: u8,
    pub number: u32,
}

/// A request for the next block, where these bytes are one.
pub fn read_next(apdu: &[u8]) -> Option<Next> {
    let mut reader = Reader::new(apdu);
    reader.fixed(&[0xC0, 0x02])?;
    let next = Next { invoke: reader.byte()?, number: reader.number32()? };
    reader.end().map(|()| next)
}

/// An ACTION, where these bytes are one.
pub fn read_action(apdu: &[u8]) -> Option<Action> {
    let mut reader = Reader::new(apdu);
    let target = target(&mut reader, 0xC3)?;
    let parameter = match reader.byte()? {
        0x00 => reader.end().map(|()| None)?,
        0x01 => Some(Value::whole(reader.rest())?),
        _ => return None,
    };
    Some(Action { target, parameter })
}

/// The answer to a GET: data, or a result code.
pub fn get_answer(invoke: u8, result: &Result<Value, u8>) -> Vec<u8> {
    match result {
        Ok(value) => [&[0xC4, 0x01, invoke, 0x00], &value.bytes()[..]].concat(),
        Err(code) => vec![0xC4, 0x01, invoke, 0x01, *code],
    }
}

/// A block with its data.
pub fn block_answer(invoke: u8, number: u32, data: &[u8], last: bool) -> Vec<u8> {
    let head = [&[0xC4, 0x02, invoke, last.into()], &number.to_be_bytes()[..], &[0x00]].concat();
    [head, shortest_length(data.len()), data.to_vec()].concat()
}

/// The last block that refuses a request for a block: its own number, and a result code.
pub fn block_refusal(next: &Next, code: u8) -> Vec<u8> {
    [&[0xC4, 0x02, next.invoke, 0x01], &next.number.to_be_bytes()[..], &[0x01, code]].concat()
}

/// The answer to an ACTION that returns nothing: done, or a result code.
pub fn action_answer(invoke: u8, result: Result<(), u8>) -> Vec<u8> {
    vec![0xC7, 0x01, invoke, result.err().unwrap_or(0x00), 0x00]
}

/// The answer to an ACTION that is done and returns a value.
pub fn action_return(invoke: u8, value: &Value) -> Vec<u8> {
    [&[0xC7, 0x01, invoke, 0x00, 0x01, 0x00], &value.bytes()[..]].concat()
}
