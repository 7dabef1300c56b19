//! What a run met of answers in blocks (change request Q-4): each block and refusal, each way in which a transfer ends, is forgotten,
//! begins anew, and is left as it is.

use reference::library::Call;
use reference::receive::{Outcome, BLOCKS, BLOCK_NOT_AGREED, BLOCK_REFUSALS};
use reference::transfer::Transfer;
use std::collections::BTreeMap;

/// What requests for blocks come to, and long reads where blocks are not agreed.
pub const EVENTS: [&[&str]; 4] = [&BLOCKS, &BLOCK_REFUSALS, &BLOCK_NOT_AGREED, &["code 250, answer too long"]];

/// A call on a meter that had a transfer.
struct Seen<'a> {
    before: &'a Transfer,
    after: &'a Transfer,
    call: &'a Call,
    outcome: &'a Outcome,
}

/// What a run should meet of a transfer that runs, or that has ended.
type Kind = (&'static str, fn(&Seen) -> bool);

/// Of those that ran.
const RUNNING: [Kind; 18] = [
    ("ended by a capture", |it| it.ends() && matches!(it.call, Call::Tick(_))),
    ("ended by H's reset of the profile", |it| it.ends() && it.is_frame()),
    ("ended by columns", |it| it.ends() && matches!(it.call, Call::SetColumns(_))),
    ("ended by registers", |it| it.ends() && matches!(it.call, Call::GiveRegisters(_))),
    ("forgotten by its last block", |it| it.is_forgotten() && it.is("last block")),
    ("forgotten by a wrong number", |it| it.is_forgotten() && it.is(BLOCK_REFUSALS[2])),
    ("left by a tick that is not due", |it| it.stays() && matches!(it.call, Call::Tick(_)) && it.is_accepted()),
    ("left by a clock that is not valid", |it| it.stays() && it.outcome.number == 14),
    ("left by columns that are refused", |it| it.stays() && it.outcome.number == 18),
    ("left by registers that are refused", |it| it.stays() && it.outcome.number == 16),
    ("left by a value", |it| it.stays() && matches!(it.call, Call::SetValue(..)) && it.is_accepted()),
    ("left by a period", |it| it.stays() && matches!(it.call, Call::SetPeriod(_)) && it.is_accepted()),
    ("left by the P5 flag", |it| it.stays() && matches!(it.call, Call::SetP5(_)) && it.is_accepted()),
    ("left by a malformed GET", |it| it.stays() && it.is("malformed GET of H")),
    ("left by an ACTION", |it| it.stays() && it.is("action of H granted")),
    ("left by an envelope that does not open", |it| it.stays() && it.outcome.number == 6),
    ("left by a read of V", |it| it.stays() && it.is("read of V granted")),
    ("left by V's link", |it| it.stays() && (it.is("link up") || it.is("link ended"))),
];

/// Of those that ran and of those that had ended.
const EITHER: [Kind; 8] = [
    ("forgotten by a read that is granted", |it| it.is_forgotten() && it.is_read() && it.is_accepted()),
    ("forgotten by a read that is denied", |it| it.is_forgotten() && it.is_read() && !it.is_accepted()),
    ("begun anew by a long read", |it| it.begins()),
    ("forgotten by a release", |it| it.is_forgotten() && it.is("released")),
    ("forgotten by a link up", |it| it.is_forgotten() && it.is("link up")),
    ("forgotten by a link down", |it| it.is_forgotten() && it.is("link ended")),
    ("forgotten by a counter outside its window", |it| it.is_forgotten() && it.outcome.number == 7),
    ("forgotten by power-up", |it| it.is_forgotten() && matches!(it.call, Call::PowerUp)),
];

/// Of those that had ended.
const ENDED: [Kind; 3] = [
    ("told by code 15", |it| it.is_forgotten() && it.is(BLOCK_REFUSALS[0])),
    ("left by a capture", |it| it.stays() && matches!(it.call, Call::Tick(_)) && it.is_accepted()),
    ("left by an ACTION", |it| it.stays() && it.is("action of H granted")),
];

/// Every kind, with what the transfer was before the call.
fn kinds() -> impl Iterator<Item = (&'static str, Kind)> {
    let running = RUNNING.into_iter().chain(EITHER).map(|kind| ("ran", kind));
    running.chain(EITHER.into_iter().chain(ENDED).map(|kind| ("had ended", kind)))
}

impl Seen<'_> {
    fn is(&self, event: &str) -> bool {
        self.outcome.event == event
    }

    fn is_accepted(&self) -> bool {
        self.outcome.number == 0
    }

    fn is_frame(&self) -> bool {
        matches!(self.call, Call::Receive { .. })
    }

    /// A GET of H in its normal form was answered.
    fn is_read(&self) -> bool {
        let plain = self.outcome.sealed.as_ref().map(|sealed| &sealed.plain[..]);
        plain.is_some_and(|plain| plain.starts_with(&[0xC4, 0x01]))
    }

    fn ends(&self) -> bool {
        matches!(self.before, Transfer::Running { .. }) && *self.after == Transfer::Ended
    }

    fn is_forgotten(&self) -> bool {
        *self.after == Transfer::Absent
    }

    fn stays(&self) -> bool {
        self.before == self.after
    }

    fn begins(&self) -> bool {
        BLOCKS[..3].contains(&self.outcome.event)
    }
}

/// How often each kind was met, by what the transfer was before.
#[derive(Default)]
pub struct Met {
    counts: BTreeMap<(&'static str, &'static str), usize>,
}

impl Met {
    /// Counts a call by the transfers before and after it.
    pub fn add(&mut self, (before, after): (&Transfer, &Transfer), call: &Call, outcome: &Outcome) {
        let was = match before {
            Transfer::Absent => return,
            Transfer::Running { .. } => "ran",
            Transfer::Ended => "had ended",
        };
        let seen = Seen { before, after, call, outcome };
        for (state, (kind, is_met)) in kinds() {
            if state == was && is_met(&seen) {
                *self.counts.entry((state, kind)).or_default() += 1;
            }
        }
    }

    fn count(&self, state: &'static str, kind: &'static str) -> usize {
        self.counts.get(&(state, kind)).copied().unwrap_or(0)
    }

    pub fn print(&self) {
        for (state, (kind, _)) in kinds() {
            println!("{:>9}  transfers that {state}, {kind}", self.count(state, kind));
        }
    }

    /// The kinds that never came up.
    pub fn missing(&self) -> impl Iterator<Item = String> + '_ {
        let never = kinds().filter(|&(state, (kind, _))| self.count(state, kind) == 0);
        never.map(|(state, (kind, _))| format!("a transfer that {state}, {kind}"))
    }
}
