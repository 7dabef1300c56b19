//! What a run met: each number, each event, deep states, rows by date, counters around the overflow, transfers, and unsound states
//! by clause.

use crate::counters;
use crate::transfers;
use reference::clock::moment;
use reference::explanation::Explanation;
use reference::library::{Call, State};
use reference::meter::{Ciphered, Meter, MOST_ROWS};
use reference::receive::{Outcome, BY_DATE};
use reference::soundness::{Clause, CLAUSES, TRANSFER_CLAUSES};
use std::collections::BTreeMap;

/// Every number that a call can answer.
fn all_numbers() -> impl Iterator<Item = u8> {
    (0..=18).chain([101, 102, 104])
}

#[derive(Default)]
pub struct Statistics {
    pub calls: usize,
    numbers: BTreeMap<u8, usize>,
    events: BTreeMap<(u8, &'static str), usize>,
    unsound: BTreeMap<Clause, usize>,
    frames_while_associated: usize,
    frames_while_pending: usize,
    frames_with_all_rows: usize,
    frames_near_counter_ends: usize,
    by_date_where: BTreeMap<&'static str, usize>,
    counters: counters::Met,
    transfers: transfers::Met,
}

/// Every clause of unsoundness.
fn clauses() -> impl Iterator<Item = Clause> {
    CLAUSES.into_iter().chain(TRANSFER_CLAUSES)
}

/// How the clocks of a meter's rows can stand to each other, from one row to the next newer one.
const ORDERS: [&str; 3] = ["clocks that only rise", "a clock that went back", "a second that came twice"];

/// Which of them are met in this meter.
fn orders(meter: &Meter) -> impl Iterator<Item = &'static str> {
    let moments: Vec<u64> = meter.rows.iter().map(|row| moment(&row.clock)).collect();
    let back = moments.windows(2).any(|pair| pair[0] < pair[1]);
    let twice = moments.windows(2).any(|pair| pair[0] == pair[1]);
    let [rising, back_there, twice_there] = ORDERS;
    let found = [(!back && !twice, rising), (back, back_there), (twice, twice_there)];
    found.into_iter().filter(|(met, _)| *met).map(|(_, order)| order)
}

impl Statistics {
    /// Counts a call by the states before and after it and what it came to; a frame call has an explanation.
    pub fn add(
        &mut self,
        call: &Call,
        (before, after): (&State, &State),
        outcome: &Outcome,
        explanation: Option<Explanation>,
    ) {
        self.calls += 1;
        *self.numbers.entry(outcome.number).or_default() += 1;
        *self.events.entry((outcome.number, outcome.event)).or_default() += 1;
        let Some(meter) = before.meter() else { return };
        if let Some(after) = after.meter() {
            self.transfers.add((&meter.transfer, &after.transfer), call, outcome);
        }
        for clause in meter.faults() {
            *self.unsound.entry(clause).or_default() += 1;
        }
        let Some(explanation) = explanation else { return };
        self.counters.add(meter, call, explanation);
        let near_end = |counter: u32| !(200..=u32::MAX - 200).contains(&counter);
        self.frames_while_associated += usize::from(matches!(meter.han.association, Ciphered::Associated { .. }));
        self.frames_while_pending += usize::from(matches!(meter.han.association, Ciphered::Pending { .. }));
        self.frames_with_all_rows += usize::from(meter.rows.len() == MOST_ROWS);
        self.frames_near_counter_ends += usize::from(near_end(meter.han.accepted) || near_end(meter.han.sent));
        if outcome.number == 0 && BY_DATE.contains(&outcome.event) && meter.rows.len() > 1 {
            orders(meter).for_each(|order| *self.by_date_where.entry(order).or_default() += 1);
        }
    }

    pub fn print(&self) {
        for ((number, event), count) in &self.events {
            println!("{count:>9}  {number:>3}  {event}");
        }
        for (number, count) in &self.numbers {
            println!("{count:>9}  {number:>3}  in all");
        }
        println!("{:>9}  frame calls while H was associated", self.frames_while_associated);
        println!("{:>9}  frame calls while H was pending", self.frames_while_pending);
        println!("{:>9}  frame calls with fifteen rows", self.frames_with_all_rows);
        println!("{:>9}  frame calls with a counter within 200 of an end", self.frames_near_counter_ends);
        self.counters.print();
        self.transfers.print();
        for (order, count) in &self.by_date_where {
            println!("{count:>9}  reads of rows by date granted, with {order}");
        }
        for clause in clauses() {
            println!("{:>9}  calls on a state unsound by {clause:?}", self.unsound_by(clause));
        }
    }

    fn unsound_by(&self, clause: Clause) -> usize {
        self.unsound.get(&clause).copied().unwrap_or(0)
    }

    fn met(&self, event: &str) -> bool {
        self.events.keys().any(|&(_, met)| met == event)
    }

    /// What never occurred though a run should meet it: numbers, clauses of unsoundness, what rows by date and requests for blocks
    /// come to, counters around the overflow, and how transfers end.
    pub fn missing(&self) -> Vec<String> {
        let numbers = all_numbers().filter(|number| !self.numbers.contains_key(number));
        let clauses = clauses().filter(|&clause| self.unsound_by(clause) == 0);
        let events = BY_DATE.into_iter().chain(transfers::EVENTS.into_iter().flatten().copied());
        let events = events.filter(|event| !self.met(event)).map(String::from);
        let orders = ORDERS.into_iter().filter(|order| !self.by_date_where.contains_key(order));
        let numbers = numbers.map(|number| format!("number {number}"));
        let clauses = clauses.map(|clause| format!("a state unsound by {clause:?}"));
        let orders = orders.map(|order| format!("rows by date with {order}"));
        let others = self.counters.missing().chain(self.transfers.missing());
        numbers.chain(clauses).chain(events).chain(orders).chain(others).collect()
    }
}
