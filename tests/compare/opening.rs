//! AARQs of both clients: right ones, and ones that depart in a field, its order, its length or its content.

use crate::damage::changed;
use crate::random::Random;
use crate::states::counter;
use reference::bytes::{part, shortest_length};
use reference::envelope::Sender;

/// An AARQ of V.
pub fn plain(random: &mut Random, title: &[u8]) -> Vec<u8> {
    let initiate = initiate(random, &[0x00]);
    let fields = vec![
        part(0xA1, &[0x06, 0x07, 0x60, 0x85, 0x74, 0x05, 0x08, 0x01, 0x01]),
        part(0xA6, &part(0x04, title)),
        part(0x8B, &[0x60, 0x85, 0x74, 0x05, 0x08, 0x02, 0x00]),
        part(0xBE, &part(0x04, &initiate)),
    ];
    assembled(random, fields)
}

/// An AARQ of H, its envelope under the sender's key.
pub fn ciphered(random: &mut Random, sender: &Sender) -> Vec<u8> {
    let key = [&[0x01, 0x10], &random.field::<16>()[..]].concat();
    let initiate = initiate(random, &key);
    let counter = counter(random);
    let mut envelope = sender.close(0x21, counter, &initiate);
    if random.percent(4) {
        envelope = changed(random, &envelope);
    }
    let fields = vec![
        part(0xA1, &[0x06, 0x07, 0x60, 0x85, 0x74, 0x05, 0x08, 0x01, 0x03]),
        part(0xA6, &part(0x04, &sender.title)),
        part(0x8A, &[0x07, 0x80]),
        part(0x8B, &[0x60, 0x85, 0x74, 0x05, 0x08, 0x02, 0x05]),
        part(0xAC, &part(0x80, &random.field::<8>())),
        part(0xBE, &part(0x04, &envelope)),
    ];
    assembled(random, fields)
}

/// An initiate request with this dedicated key field.
fn initiate(random: &mut Random, key: &[u8]) -> Vec<u8> {
    let any = random.array();
    let services = random.pick(&[
        [0, 0, 0x14],
        [0, 0, 0x15],
        [0, 0x10, 0x15],
        [0, 0x10, 0x1D],
        [0xFF; 3],
        [0xFF; 3],
        [0xFF; 3],
        any,
    ]);
    let size = random.pick(&[768_u16, 768, 768, 768, 768, 1024, 65535, 65535, 769, 769, 1024, 768, 767, 255]);
    let head = [0x00, 0x00, 0x06, 0x5F, 0x1F, 0x04, 0x00];
    let right = [&[0x01], key, &head, &services, &size.to_be_bytes()].concat();
    match random.percent(6) {
        true => changed(random, &right),
        false => right,
    }
}

/// The AARQ of these fields, one time in five with a departure.
fn assembled(random: &mut Random, mut fields: Vec<Vec<u8>>) -> Vec<u8> {
    let (one, other) = (random.below(fields.len()), random.below(fields.len()));
    match random.below(44) {
        0 => drop(fields.remove(one)),
        1 => fields.insert(one, fields[one].clone()),
        2 => fields.swap(one, other),
        8..=11 => {
            let field = fields[one].clone();
            let content = &field[1 + shortest_length(field.len() - 2).len()..];
            fields[one] = part(field[0], &changed(random, content));
        }
        3 | 4 => fields[one] = changed(random, &fields[one].clone()),
        5 => fields.insert(one, random.pick(&[part(0x80, &[0x07, 0x80]), part(0xBD, &[]), part(0xA2, &[0x04, 0x00])])),
        6 => fields[one] = in_longer_form(&fields[one]),
        7 => fields.push(vec![0x00]),
        _ => {}
    }
    part(0x60, &fields.concat())
}

/// The same field with its length in two bytes.
fn in_longer_form(field: &[u8]) -> Vec<u8> {
    let content = &field[1 + shortest_length(field.len()).len()..];
    [&[field[0], 0x81, content.len() as u8], content].concat()
}
