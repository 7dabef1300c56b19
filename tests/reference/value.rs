//! Values in A-XDR as trees (document 01, "Objects and rows"): read whole, measured, written.

use crate::bytes::{shortest_length, Reader};

/// How deep a value may be; one with no members has depth 1.
const DEEPEST: usize = 4;

#[derive(Clone, Debug, PartialEq)]
pub enum Value {
    Null,
    Array(Vec<Value>),
    Structure(Vec<Value>),
    Boolean(u8),
    DoubleLongUnsigned(u32),
    OctetString(Vec<u8>),
    VisibleString(Vec<u8>),
    Integer(u8),
    Unsigned(u8),
    LongUnsigned(u16),
    Enumerated(u8),
}

use Value::*;

impl Value {
    /// The value that these bytes are, where they are one whole value and nothing behind it.
    pub fn whole(bytes: &[u8]) -> Option<Value> {
        let mut reader = Reader::new(bytes);
        let value = read(&mut reader)?;
        reader.end()?;
        (value.depth() <= DEEPEST).then_some(value)
    }

    fn depth(&self) -> usize {
        match self {
            Array(members) | Structure(members) => 1 + members.iter().map(Value::depth).max().unwrap_or(0),
            _ => 1,
        }
    }

    /// The value as bytes.
    pub fn bytes(&self) -> Vec<u8> {
        match self {
            Null => vec![0x00],
            Array(members) => with_members(0x01, members),
            Structure(members) => with_members(0x02, members),
            Boolean(byte) => vec![0x03, *byte],
            DoubleLongUnsigned(number) => [&[0x06], &number.to_be_bytes()[..]].concat(),
            OctetString(content) => crate::bytes::part(0x09, content),
            VisibleString(content) => crate::bytes::part(0x0A, content),
            Integer(byte) => vec![0x0F, *byte],
            Unsigned(byte) => vec![0x11, *byte],
            LongUnsigned(number) => [&[0x12], &number.to_be_bytes()[..]].concat(),
            Enumerated(byte) => vec![0x16, *byte],
        }
    }
}

fn with_members(kind: u8, members: &[Value]) -> Vec<u8> {
    let mut bytes = vec![kind];
    bytes.extend(shortest_length(members.len()));
    bytes.extend(members.iter().flat_map(Value::bytes));
    bytes
}

fn read(reader: &mut Reader) -> Option<Value> {
    Some(match reader.byte()? {
        0x00 => Null,
        0x01 => Array(read_members(reader)?),
        0x02 => Structure(read_members(reader)?),
        0x03 => Boolean(reader.byte()?),
        0x06 => DoubleLongUnsigned(reader.number32()?),
        0x09 => OctetString(read_string(reader)?),
        0x0A => VisibleString(read_string(reader)?),
        0x0F => Integer(reader.byte()?),
        0x11 => Unsigned(reader.byte()?),
        0x12 => LongUnsigned(reader.number16()?),
        0x16 => Enumerated(reader.byte()?),
        _ => return None,
    })
}

fn read_members(reader: &mut Reader) -> Option<Vec<Value>> {
    let count = reader.length()?;
    (0..count).map(|_| read(reader)).collect()
}

fn read_string(reader: &mut Reader) -> Option<Vec<u8>> {
    let length = reader.length()?;
    reader.take(length).map(<[u8]>::to_vec)
}
