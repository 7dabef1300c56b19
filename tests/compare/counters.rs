//! What a run met of counters around the overflow (change request Q-3): of envelopes that opened the step from the last accepted,
//! of proofs the inner step, too.

use reference::envelope::step;
use reference::explanation::{Explanation, NONE, TESTS};
use reference::given::Given;
use reference::library::Call;
use reference::meter::Meter;
use reference::receive::Lent;
use std::collections::BTreeMap;

/// The last accepted, the counter of an envelope that opened, and the inner one of a proof in it that has its GMAC.
struct Counters {
    last: u32,
    envelope: u32,
    inner: Option<u32>,
}

/// What a run should meet.
type Kind = (&'static str, fn(&Counters) -> bool);

const KINDS: [Kind; 11] = [
    ("a counter accepted over the overflow", |it| it.is_over() && it.step() <= 180),
    ("a step of 180 over the overflow", |it| it.is_over() && it.step() == 180),
    ("a step of 181 over the overflow", |it| it.is_over() && it.step() == 181),
    ("a step of 0", |it| it.step() == 0),
    ("4294967295 where 0 was the last accepted", |it| it.last == 0 && it.envelope == u32::MAX),
    ("a proof over the overflow, its inner counter, too", |it| it.is_right() && it.inner < Some(it.last)),
    ("a proof over the overflow, its inner counter not", |it| it.is_right() && it.inner > Some(it.last)),
    ("a proof over the overflow with an inner step of 0", |it| it.is_proof(|inner, _| inner == 0)),
    ("a proof over the overflow with its envelope's own counter", |it| it.is_proof(|inner, outer| inner == outer)),
    ("a proof over the overflow with an inner step beyond", |it| it.is_proof(|inner, outer| is_beyond(inner, outer))),
    ("a proof over the overflow from before the last accepted", |it| it.is_proof(|inner, _| is_back(inner))),
];

/// A step that is rather one back.
fn is_back(step: u64) -> bool {
    step >= 1 << 31
}

fn is_beyond(inner: u64, outer: u64) -> bool {
    inner > outer && !is_back(inner)
}

impl Counters {
    fn step(&self) -> u64 {
        step(self.last, self.envelope)
    }

    /// Whether the envelope's counter is a step on, and yet a smaller number.
    fn is_over(&self) -> bool {
        self.envelope < self.last && !is_back(self.step())
    }

    /// Whether a proof came over the overflow within the window, its inner step and its envelope's being so.
    fn is_proof(&self, so: fn(u64, u64) -> bool) -> bool {
        let inner = self.inner.map(|inner| step(self.last, inner));
        self.is_over() && self.step() <= 180 && inner.is_some_and(|inner| so(inner, self.step()))
    }

    fn is_right(&self) -> bool {
        self.is_proof(|inner, outer| (1..outer).contains(&inner))
    }
}

/// How often each kind was met.
#[derive(Default)]
pub struct Met {
    counts: BTreeMap<&'static str, usize>,
}

impl Met {
    /// Counts a frame call on this meter.
    pub fn add(&mut self, meter: &Meter, call: &Call, explanation: Explanation) {
        let Call::Receive { frame, guk, authentication, challenge, room } = call else { return };
        let lent = Lent { guk, authentication, challenge, room: *room };
        let given = Given::new(meter, frame, &lent);
        if !is_opened(explanation) {
            return;
        }
        let Some(envelope) = given.envelope() else { return };
        let counters = Counters { last: meter.han.accepted, envelope: envelope.counter, inner: given.proof_counter() };
        for (kind, _) in KINDS.iter().filter(|(_, is_met)| is_met(&counters)) {
            *self.counts.entry(kind).or_default() += 1;
        }
    }

    fn count(&self, kind: &str) -> usize {
        self.counts.get(kind).copied().unwrap_or(0)
    }

    pub fn print(&self) {
        for (kind, _) in KINDS {
            println!("{:>9}  frame calls with {kind}", self.count(kind));
        }
    }

    /// The kinds that never came up.
    pub fn missing(&self) -> impl Iterator<Item = String> + '_ {
        KINDS.iter().filter(|(kind, _)| self.count(kind) == 0).map(|(kind, _)| kind.to_string())
    }
}

/// Whether an envelope, if there is one, was opened: no test failed, or that of its counter, or one behind that.
fn is_opened(explanation: Explanation) -> bool {
    let place = |wanted: &str| TESTS.iter().position(|&(_, name, _)| name == wanted);
    explanation.name == NONE || place(explanation.name) >= place("counter-window")
}
