//! Answers in blocks (change request Q-4): full blocks for every number of rows and columns, their joined data, the refusals in
//! their order, each end and each way of being forgotten, and which transfers calls can leave. Every frame is also explained, and
//! the meter after it is sound and comes back from its image.

use crate::{array, hex};
use reference::acse::Services;
use reference::aes::Block;
use reference::clock::Clock;
use reference::envelope::Sender;
use reference::frame::{self, Head};
use reference::image;
use reference::meter::{Ciphered, Meter, Plain, Register, Row};
use reference::objects::{rows_data, Selection};
use reference::receive::{Lent, Outcome};
use reference::transfer::{full_block, Transfer};

const GUK: Block = [0x11; 16];
const AUTHENTICATION: Block = [0x22; 16];
const DEDICATED: Block = [0x33; 16];
const ALL: Services = [0, 0x10, 0x15];

const ROWS: &str = "C001C100070000150006FF0200";
const CLOCK: &str = "C001C100080000010000FF0200";
const RESET: &str = "C301C100070000150006FF0100";
const NUMBER_RESET: &str = "C301C100030000600F03FF0100";

fn name(k: u8) -> [u8; 6] {
    [1, 0, k, 8, 0, 255]
}

/// A minute of the first hour of 2017.
fn at(minute: u8) -> Clock {
    [0x07, 0xE1, 1, 1, 0xFF, 0, minute, 0, 0xFF, 0x80, 0, 0]
}

/// H at a meter with so many columns and rows, associated for these services.
struct Han {
    meter: Meter,
}

fn han(columns: u8, rows: u8, agreed: Services) -> Han {
    let mut meter = Meter::new([0x54; 16], [1; 8], [2; 8], [3; 8]);
    let register = |k: u8| Register { name: name(k), right: true, scaler: 0, unit: 30, value: k.into() };
    meter.registers = (0..columns).map(register).collect();
    meter.columns = (0..columns).map(name).collect();
    let cells = |n: u8| (0..columns).map(|k| u32::from_be_bytes([n, k, !n, !k])).collect();
    meter.rows = (1..=rows).rev().map(|n| Row { number: n.into(), clock: at(n), cells: cells(n) }).collect();
    meter.clock = at(rows);
    meter.han.linked = true;
    meter.han.association = Ciphered::Associated { agreed, key: DEDICATED };
    Han { meter }
}

/// H at a meter with a read of three blocks, of which the first was sent.
fn begun() -> Han {
    let mut han = han(16, 15, ALL);
    assert_eq!(han.get(ROWS).number, 0);
    assert_eq!(han.running(), Some(1));
    han
}

impl Han {
    /// A frame of any client. Its explanation has the number of the call; what the meter then holds is sound, and its image has it.
    fn frame(&mut self, source: u8, control: u8, information: &[u8]) -> Outcome {
        let frame = frame::write(Head { destination: 0x03, source, control }, information);
        let lent = Lent { guk: &GUK, authentication: &AUTHENTICATION, challenge: &[0; 8], room: 779 };
        let explanation = self.meter.explain(&frame, &lent);
        let outcome = self.meter.receive(&frame, &lent);
        assert_eq!(explanation.number, outcome.number, "{explanation}");
        let image = image::write(&self.meter, &[0; image::SIZE]);
        assert_eq!(image::read(&image).as_ref(), Ok(&self.meter));
        assert!(self.meter.is_sound(), "{:?}", self.meter.faults());
        outcome
    }

    fn apdu(&mut self, apdu: &[u8]) -> Outcome {
        self.frame(0x27, 0x13, &[&[0xE6, 0xE6, 0x00], apdu].concat())
    }

    /// A request under the dedicated key, with a counter so many steps on.
    fn sealed(&mut self, tag: u8, plain: &[u8], step: u32) -> Outcome {
        let sender = Sender { title: self.meter.han.title, key: DEDICATED, authentication: AUTHENTICATION };
        let apdu = sender.close(tag, self.meter.han.accepted.wrapping_add(step), plain);
        self.apdu(&apdu)
    }

    fn get(&mut self, plain: &str) -> Outcome {
        self.sealed(0xD0, &hex(plain), 1)
    }

    fn act(&mut self, plain: &str) -> Outcome {
        self.sealed(0xD3, &hex(plain), 1)
    }

    /// The answer to a request for the block behind this one, in its plain form.
    fn next(&mut self, number: u32) -> (u8, Vec<u8>) {
        let outcome = self.sealed(0xD0, &[&[0xC0, 0x02, 0x5A], &number.to_be_bytes()[..]].concat(), 1);
        (outcome.number, outcome.sealed.expect("it is answered in an envelope").plain)
    }

    /// A request for a block is refused by this code, and then none runs.
    fn denied(&mut self, number: u32, code: u8) {
        let block = [&[0xC4, 0x02, 0x5A, 0x01], &number.to_be_bytes()[..], &[0x01, code]].concat();
        assert_eq!(self.next(number), (13, block));
        assert_eq!(self.meter.transfer, Transfer::Absent);
    }

    /// The number of the block sent last, where a transfer runs.
    fn running(&self) -> Option<u32> {
        match self.meter.transfer {
            Transfer::Running { block, .. } => Some(block),
            _ => None,
        }
    }

    /// The data of a read, joined, and the sizes of its blocks; of one frame its data alone.
    fn joined(&mut self, request: &[u8]) -> (Vec<u8>, Vec<usize>) {
        let mut answer = self.sealed(0xD0, request, 1).sealed.expect("an answer").plain;
        if answer.starts_with(&[0xC4, 0x01]) {
            assert_eq!((answer[3], &self.meter.transfer), (0x00, &Transfer::Absent));
            return (answer[4..].to_vec(), vec![]);
        }
        let (mut data, mut sizes) = (vec![], vec![]);
        for number in 1.. {
            let (last, block) = block_in(&answer, number);
            data.extend(block);
            sizes.push(block.len());
            if last {
                return (data, sizes);
            }
            answer = self.next(number).1;
        }
        unreachable!("there is a last block");
    }
}

/// Whether an answer is the last, and its data: a block of this number.
fn block_in(answer: &[u8], number: u32) -> (bool, &[u8]) {
    assert_eq!((&answer[..2], &answer[4..9]), (&[0xC4, 0x02][..], &[&number.to_be_bytes()[..], &[0x00]].concat()[..]));
    let (length, head) = match answer[9] {
        0x82 => (usize::from(u16::from_be_bytes([answer[10], answer[11]])), 12),
        0x81 => (answer[10].into(), 11),
        short => (short.into(), 10),
    };
    assert!(answer.len() <= 744 && answer.len() == head + length && answer[3] <= 1);
    (answer[3] == 1, &answer[head..])
}

/// The GET of rows by entries, and by date.
fn by_entries(from: u32, to: u32) -> Vec<u8> {
    let head = hex("C001C100070000150006FF0201 02 0204");
    [head, [&[0x06], &from.to_be_bytes()[..], &[0x06], &to.to_be_bytes()].concat(), hex("120001 120000")].concat()
}

fn by_date(from: &Clock, to: &Clock) -> Vec<u8> {
    let head = hex("C001C100070000150006FF0201 01 0204 0204 120008 0906 0000010000FF 0F02 120000");
    [&head[..], &[0x09, 12], from, &[0x09, 12], to, &[0x01, 0x00]].concat()
}

#[test]
fn first_block_byte_by_byte() {
    assert_eq!(full_block(), 732);
    let mut han = han(16, 15, ALL);
    let first = han.get(ROWS).sealed.expect("an answer").plain;
    assert_eq!(first.len(), 744);
    assert_eq!(first[..12], array::<12>("C402C1 00 00000001 00 8202DC"));
    assert_eq!(first[12..34], array::<22>("010F 0212 12000F 090C 07E10101FF000F00FF800000 06"));
    let (number, second) = han.next(1);
    assert_eq!((number, &second[..12]), (0, &hex("C4025A 00 00000002 00 8202DC")[..]));
    let (number, third) = han.next(2);
    assert_eq!((number, &third[..10], third.len()), (0, &hex("C4025A 01 00000003 00 17")[..], 33));
    han.denied(3, 16);
}

/// For every number of rows and columns: what goes out joined is what one large frame would have held, in full blocks but the
/// last, and in blocks only where it has to be.
#[test]
fn joined_blocks() {
    for (columns, rows) in (0..=16).flat_map(|columns| (0..=15).map(move |rows| (columns, rows))) {
        let mut han = han(columns, rows, ALL);
        let data = rows_data(&han.meter, &None).expect("all rows can be read");
        assert_eq!(data.len(), 2 + usize::from(rows) * (19 + 5 * usize::from(columns)));
        let (joined, sizes) = han.joined(&hex(ROWS));
        assert_eq!(joined, data);
        let full = data.len() / 732;
        match data.len() {
            0..=740 => assert!(sizes.is_empty()),
            length => assert_eq!(sizes, [vec![732; full], vec![length % 732]].concat()),
        }
        assert_eq!(han.meter.transfer, Transfer::Absent);
    }
}

#[test]
fn joined_blocks_of_selections() {
    for (columns, rows) in [(16, 15), (16, 8), (11, 10), (7, 15)] {
        let mut han = han(columns, rows, ALL);
        for (from, to) in [(1, 0), (1, 15), (2, 99), (2, u32::MAX), (1, 14), (3, 4)] {
            let entries = Selection::Entries { from, to, columns: (1, 0) };
            let data = rows_data(&han.meter, &Some(entries)).expect("these entries can be read");
            assert_eq!(han.joined(&by_entries(from, to)).0, data);
        }
        for (from, to) in [(0, 15), (0, 59), (1, 15), (0, 14), (5, 6), (20, 30)] {
            let range = Selection::Range { from: at(from), to: at(to) };
            let data = rows_data(&han.meter, &Some(range)).expect("this range can be read");
            assert_eq!(han.joined(&by_date(&at(from), &at(to))).0, data);
        }
    }
}

#[test]
fn refusals_in_their_order() {
    let mut han = begun();
    han.denied(2, 19);
    han.denied(1, 16);
    for wrong in [0, 2, 256, u32::MAX] {
        han.get(ROWS);
        han.denied(wrong, 19);
    }
    han.get(ROWS);
    assert_eq!(han.meter.tick(at(16)), 0);
    han.denied(7, 15);
    han.denied(7, 16);
    han.denied(u32::MAX, 16);
}

/// What ends a transfer: 15 once, whatever the number.
#[test]
fn ends() {
    let registers = begun().meter.registers;
    let ends: [&dyn Fn(&mut Han); 6] = [
        &|han| assert_eq!(han.meter.tick(at(16)), 0),
        &|han| assert_eq!(han.meter.tick(at(3)), 0),
        &|han| assert_eq!(han.act(RESET).number, 0),
        &|han| assert_eq!(han.meter.set_columns(han.meter.columns.clone()), 0),
        &|han| assert_eq!(han.meter.give_registers(registers.clone()), 0),
        &|han| assert_eq!((han.meter.tick(at(17)), han.meter.give_registers(vec![])), (0, 0)),
    ];
    for end in ends {
        for number in [1, 2, 0] {
            let mut han = begun();
            end(&mut han);
            assert_eq!((&han.meter.transfer, han.meter.is_sound()), (&Transfer::Ended, true));
            han.denied(number, 15);
            han.denied(number, 16);
            end(&mut han);
            assert_eq!(han.meter.transfer, Transfer::Absent);
        }
    }
}

#[test]
fn what_does_not_end() {
    let mut han = begun();
    let data = rows_data(&han.meter, &None);
    assert_eq!((han.meter.set_period(900), han.meter.tick(at(16)), han.meter.set_p5(true)), (0, 0, 0));
    assert_eq!(han.meter.set_value(name(3), 77), 0);
    assert_eq!(han.act(NUMBER_RESET).number, 0);
    assert_eq!((han.meter.set_period(45), han.meter.tick([0; 12]), han.meter.set_value([0; 6], 1)), (15, 14, 17));
    let twice = vec![han.meter.registers[0].clone(); 2];
    assert_eq!((han.meter.set_columns(vec![[0; 6]]), han.meter.give_registers(twice)), (18, 16));
    assert_eq!(han.act("C301C100070000150006FF010100").number, 13);
    assert_eq!(han.running(), Some(1));
    assert_eq!(rows_data(&han.meter, &None), data);
    assert_eq!(han.next(1).0, 0);
    assert_eq!(han.next(2).0, 0);
}

/// H's next read, and the end of its association, forget a transfer, running or ended.
#[test]
fn forgotten() {
    let denied = "C001C100080000020000FF0200";
    let ways: [&dyn Fn(&mut Han); 8] = [
        &|han| assert_eq!(han.get(CLOCK).number, 0),
        &|han| assert_eq!(han.get(denied).number, 13),
        &|han| assert_eq!(han.apdu(&hex("6203800100")).number, 0),
        &|han| assert_eq!(han.frame(0x27, 0x93, &[]).number, 0),
        &|han| assert_eq!(han.frame(0x27, 0x53, &[]).number, 0),
        &|han| assert_eq!(han.sealed(0xD0, &hex(CLOCK), 181).number, 7),
        &|han| assert_eq!(han.sealed(0xD3, &hex(RESET), 0).number, 7),
        &|han| assert_eq!(han.meter.power_up(), 0),
    ];
    for way in ways {
        for ended in [false, true] {
            let mut han = begun();
            if ended {
                assert_eq!(han.meter.tick(at(16)), 0);
            }
            way(&mut han);
            assert_eq!((&han.meter.transfer, han.meter.is_sound()), (&Transfer::Absent, true));
        }
    }
    let mut again = begun();
    assert_eq!(again.next(1).0, 0);
    assert_eq!((again.get(ROWS).number, again.running()), (0, Some(1)));
    assert_eq!(again.meter.tick(at(16)), 0);
    assert_eq!((again.get(ROWS).number, again.running()), (0, Some(1)));
}

#[test]
fn what_does_not_forget() {
    let mut han = begun();
    for malformed in ["C001C100080000010000FF020000", "C002C1000001", "C002C10000000001", "C003C1", "C0", ""] {
        assert_eq!((han.get(malformed).number, han.running()), (12, Some(1)));
    }
    assert_eq!((han.act("C301C1").number, han.act("C301C100030000020000FF0100").number), (12, 13));
    assert_eq!(han.act(NUMBER_RESET).number, 0);
    assert_eq!((han.apdu(&hex("D000")).number, han.apdu(&hex("6200")).number, han.apdu(&[0x60]).number), (6, 12, 12));
    assert_eq!((han.frame(0x27, 0x93, &[0]).number, han.frame(0x27, 0x97, &[]).number), (10, 5));
    han.meter.verification.association = Plain::Associated([0, 0, 0x14]);
    han.meter.verification.linked = true;
    let v_asks = hex("E6E600 C001C1000100002A0000FF0200");
    assert_eq!(han.frame(0x21, 0x13, &v_asks).number, 0);
    assert_eq!(han.frame(0x21, 0x13, &hex("E6E600 C002C100000001")).number, 12);
    assert_eq!(han.frame(0x21, 0x53, &[]).number, 0);
    assert_eq!(han.running(), Some(1));
    assert_eq!(han.next(1).0, 0);
}

#[test]
fn without_the_bit() {
    let mut han = han(16, 15, [0, 0, 0x15]);
    let long = han.get(ROWS);
    assert_eq!((long.number, long.sealed.expect("an answer").plain), (13, hex("C401C101FA")));
    let before = han.meter.han.accepted;
    let asked = han.get("C002C100000001");
    assert_eq!((asked.number, asked.sealed.is_none(), han.meter.han.accepted), (12, true, before + 1));
    assert!(asked.reply.windows(3).any(|bytes| bytes == [0xD8, 0x02, 0x02]));
    han.meter.han.association = Ciphered::Associated { agreed: [0, 0x10, 0x05], key: DEDICATED };
    let asked = han.get("C002C100000001");
    assert_eq!((asked.number, han.meter.han.accepted), (12, before + 1));
    assert!(asked.reply.windows(3).any(|bytes| bytes == [0xD8, 0x01, 0x01]));
}

/// Reads that could have begun a transfer: all rows, entries and ranges of every kind, wrong ones among them.
fn reads() -> Vec<(Option<Selection>, Vec<u8>)> {
    let ends = [0, 1, 2, 7, 8, 9, 14, 15, 16, u32::MAX];
    let entries = ends.into_iter().flat_map(|from| ends.into_iter().map(move |to| (from, to)));
    let entries =
        entries.map(|(from, to)| (Some(Selection::Entries { from, to, columns: (1, 0) }), by_entries(from, to)));
    let clocks = [at(0), at(1), at(7), at(8), at(15), at(60), array("07E10101FF010000FF800000")];
    let ranges = clocks.into_iter().flat_map(|from| clocks.into_iter().map(move |to| (from, to)));
    let ranges = ranges.map(|(from, to)| (Some(Selection::Range { from, to }), by_date(&from, &to)));
    [(None, hex(ROWS))].into_iter().chain(entries).chain(ranges).collect()
}

/// A state is sound exactly where calls could have left its transfer: here each read is made, and blocks are asked for to the end.
#[test]
fn sound_where_calls_lead() {
    for (columns, rows) in [(16, 15), (16, 8), (7, 14), (6, 15)] {
        for agreed in [ALL, [0, 0x10, 0x14], [0, 0x10, 0x11], [0, 0x10, 0x05], [0, 0, 0x15], [0, 0, 0]] {
            for (selection, request) in reads() {
                let mut han = han(columns, rows, agreed);
                han.sealed(0xD0, &request, 1);
                let mut left = vec![];
                while let Some(block) = han.running() {
                    left.push(han.meter.transfer.clone());
                    han.next(block);
                }
                for block in [0, 1, 2, 3, 4, 1 << 31, u32::MAX] {
                    han.meter.transfer = Transfer::Running { selection: selection.clone(), block };
                    assert_eq!(han.meter.is_sound(), left.contains(&han.meter.transfer), "{:?}", han.meter.transfer);
                }
            }
        }
    }
}

/// An ended transfer may stand wherever one could have run, with any rows since; where H is not associated nothing may.
#[test]
fn sound_where_it_ended() {
    for (agreed, sound) in
        [(ALL, true), ([0, 0x10, 0x10], true), ([0, 0x10, 0x05], false), ([0, 0, 0x15], false), ([0; 3], false)]
    {
        for rows in [0, 1, 15] {
            let mut han = han(1, rows, agreed);
            han.meter.transfer = Transfer::Ended;
            assert_eq!(han.meter.is_sound(), sound);
        }
    }
    let (client_challenge, meter_challenge) = ([4; 8], [5; 8]);
    let pending = Ciphered::Pending { agreed: ALL, key: DEDICATED, client_challenge, meter_challenge };
    for association in [Ciphered::Absent, pending] {
        for transfer in [Transfer::Ended, Transfer::Running { selection: None, block: 1 }] {
            let mut han = han(16, 15, ALL);
            (han.meter.han.association, han.meter.transfer) = (association.clone(), transfer);
            assert!(!han.meter.is_sound());
        }
    }
}
