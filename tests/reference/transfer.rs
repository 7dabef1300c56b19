//! Answers in blocks (change request Q-4; the Green Book's get with block transfer): a read of H that is too long for one
//! frame. No data are kept. A block is cut from what the rows give when it is asked for: they are those of the first request, or else
//! the transfer has ended.

use crate::acse::Services;
use crate::bytes::shortest_length;
use crate::clock;
use crate::meter::{Ciphered, Meter};
use crate::objects::{self, Selection, ROOM, TEXT};
use crate::receive::{has, BLOCK_BIT, GET_BIT, SELECTIVE_BIT};
use crate::soundness::Clause;

/// H's read in blocks.
#[derive(Clone, Debug, PartialEq)]
pub enum Transfer {
    Absent,
    /// The rows that were asked for, all of them or a selection, and the number of the block sent last.
    Running {
        selection: Option<Selection>,
        block: u32,
    },
    /// Rows, columns or registers became others meanwhile, and H was not told yet.
    Ended,
}

/// A block before its data and their length: C4 02, the invoke byte, whether it is the last, its number, and 00.
const HEAD: usize = 9;

/// The data of a full block: as many as fit with their length.
pub fn full_block() -> usize {
    let fits = |&size: &usize| HEAD + shortest_length(size).len() + size <= TEXT;
    (0..TEXT).rev().find(fits).expect("a block of no data fits")
}

/// The block of this number, counted from 1, and whether it is the last.
pub fn block(data: &[u8], number: u32) -> Option<(&[u8], bool)> {
    let blocks: Vec<&[u8]> = data.chunks(full_block()).collect();
    let place = usize::try_from(number).ok()?.checked_sub(1)?;
    blocks.get(place).map(|&block| (block, place + 1 == blocks.len()))
}

impl Meter {
    /// Rows, columns or registers are others now: a transfer that runs has ended.
    pub fn interrupt_transfer(&mut self) {
        if matches!(self.transfer, Transfer::Running { .. }) {
            self.transfer = Transfer::Ended;
        }
    }

    /// What no calls could have left, with H's association and the rows as they stand.
    pub fn transfer_faults(&self) -> Vec<(Clause, bool)> {
        let Transfer::Running { selection, block } = &self.transfer else {
            return self.holder_faults(self.transfer != Transfer::Absent, false);
        };
        let mut faults = self.holder_faults(true, selection.is_some());
        faults.extend(self.read_faults(selection, *block));
        faults
    }

    /// H is associated with the services that a transfer needs.
    fn holder_faults(&self, held: bool, selected: bool) -> Vec<(Clause, bool)> {
        let lacks = |bit: Services| match self.han.association {
            Ciphered::Associated { agreed, .. } => !has(agreed, bit),
            _ => false,
        };
        let associated = matches!(self.han.association, Ciphered::Associated { .. });
        vec![
            (Clause::TransferWithoutHan, held && !associated),
            (Clause::TransferWithoutGet, held && lacks(GET_BIT)),
            (Clause::TransferWithoutBlocks, held && lacks(BLOCK_BIT)),
            (Clause::TransferWithoutSelection, selected && lacks(SELECTIVE_BIT)),
        ]
    }

    /// The read would be granted, is too long for one frame, and is not yet at its end.
    fn read_faults(&self, selection: &Option<Selection>, number: u32) -> Vec<(Clause, bool)> {
        let clocks = match selection {
            Some(Selection::Range { from, to }) => clock::is_valid(from) && clock::is_valid(to),
            _ => true,
        };
        let data = objects::rows_data(self, selection);
        let wrong = data.is_none();
        let by_date = matches!(selection, Some(Selection::Range { .. }));
        let length = data.as_ref().map_or(usize::MAX, Vec::len);
        let ended = data.is_some_and(|data| !matches!(block(&data, number), Some((_, false))));
        vec![
            (Clause::TransferClock, !clocks),
            (Clause::TransferRange, wrong && by_date && clocks),
            (Clause::TransferEntries, wrong && !by_date),
            (Clause::TransferShort, length <= ROOM),
            (Clause::TransferBlockZero, number == 0),
            (Clause::TransferBlockBeyond, number != 0 && ended),
        ]
    }
}
