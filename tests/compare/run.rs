//! A run: one scenario after the other, each a state handed in and calls that go on from it, until enough were compared.

use crate::bench::Bench;
use crate::explained::Explained;
use crate::owner;
use crate::player::Player;
use crate::random::Random;
use crate::samples::Samples;
use crate::states;
use crate::statistics::Statistics;
use reference::aes::Block;
use reference::frame::LONGEST_FRAME;
use reference::image::SIZE;
use reference::library::{Call, State};
use reference::meter::Meter;
use reference::soundness::{CLAUSES, TRANSFER_CLAUSES};

/// How many frames a scenario remembers, to send them again.
const REMEMBERED: usize = 6;

pub struct Run {
    random: Random,
    limit: usize,
    pub statistics: Statistics,
    pub samples: Samples,
}

/// How many calls of a scenario are explained at most: many short ones meet every test.
const EXPLAINED_STEPS: usize = 12;

/// What stays through one scenario.
struct Scenario {
    bench: Bench,
    guk: Block,
    authentication: Block,
    past: Vec<Vec<u8>>,
    steps: usize,
}

impl Run {
    pub fn new(seed: u64, limit: usize) -> Run {
        Run { random: Random::new(seed), limit, statistics: Statistics::default(), samples: Samples::default() }
    }

    /// Compares so many calls; an error tells of the first difference.
    pub fn compare(&mut self) -> Result<(), String> {
        while self.statistics.calls < self.limit {
            let scenario = self.scenario();
            self.play(scenario)?;
        }
        Ok(())
    }

    /// Adds frame calls until there are as many as the limit, each compared with the library as every call is.
    pub fn explain(&mut self, explained: &mut Explained, limit: usize) -> Result<(), String> {
        while explained.frames() < limit {
            let mut scenario = self.scenario();
            for _ in 0..scenario.steps.min(EXPLAINED_STEPS) {
                let call = self.call(&mut scenario);
                let image = scenario.bench.image.clone();
                let agreement = scenario.bench.call(&mut self.random, &call)?;
                if let Some(explanation) = agreement.explanation {
                    explained.add(&image, &call, explanation);
                }
            }
        }
        Ok(())
    }

    fn scenario(&mut self) -> Scenario {
        let random = &mut self.random;
        let (image, steps) = match random.below(33) {
            0..=1 => (states::refused(random), 5),
            2..=6 => {
                let clause = random.pick(&CLAUSES);
                (states::unsound(random, clause), 6)
            }
            7 => (random.bytes(SIZE), 120),
            8..=10 => {
                let meter = states::readable(random);
                (states::image(random, &meter), 40)
            }
            11..=16 => {
                let meter = states::at_overflow(random);
                (states::image(random, &meter), 8)
            }
            17..=18 => {
                let clause = random.pick(&TRANSFER_CLAUSES);
                (states::unsound_transfer(random, clause), 6)
            }
            19..=26 => {
                let meter = states::long(random);
                (states::image(random, &meter), random.pick(&[10, 20, 40]))
            }
            _ => {
                let meter = states::sound(random);
                (states::image(random, &meter), random.pick(&[10, 10, 30, 30, 60, 60, 200]))
            }
        };
        let (guk, authentication) = (random.field(), random.field());
        Scenario { bench: Bench::new(image), guk, authentication, past: vec![], steps }
    }

    fn play(&mut self, mut scenario: Scenario) -> Result<(), String> {
        for _ in 0..scenario.steps {
            if self.statistics.calls == self.limit {
                return Ok(());
            }
            let call = self.call(&mut scenario);
            let before = scenario.bench.state.clone();
            let compared = scenario.bench.call(&mut self.random, &call);
            let agreement =
                compared.map_err(|told| format!("{told}\nnumber of the call: {}", self.statistics.calls + 1))?;
            let states = (&before, &scenario.bench.state);
            self.statistics.add(&call, states, &agreement.outcome, agreement.explanation);
            if let Some(meter) = before.meter() {
                self.samples.add(&call, meter, &agreement.outcome, &agreement.room);
            }
        }
        Ok(())
    }

    /// The next call. A buffer that is no state gets calls as for some meter, and often a new one.
    fn call(&mut self, scenario: &mut Scenario) -> Call {
        let (meter, renewals) = match &scenario.bench.state {
            State::Held(meter) => ((**meter).clone(), 1),
            State::Refused(_) => (states::sound(&mut self.random), 40),
        };
        if self.random.percent(renewals) {
            return owner::new_meter(&mut self.random);
        }
        match self.random.percent(20) {
            true => owner::call(&mut self.random, &meter),
            false => self.receive(scenario, &meter),
        }
    }

    /// A frame call; seldom something lent has a wrong length.
    fn receive(&mut self, scenario: &mut Scenario, meter: &Meter) -> Call {
        let (guk, authentication) = (scenario.guk, scenario.authentication);
        let mut player = Player { random: &mut self.random, meter, guk, authentication, past: &scenario.past };
        let frame = player.frame();
        if scenario.past.len() == REMEMBERED {
            scenario.past.remove(0);
        }
        scenario.past.push(frame.clone());
        let random = &mut self.random;
        let (mut guk, mut authentication, mut challenge) =
            (guk.to_vec(), authentication.to_vec(), random.field::<8>().to_vec());
        match random.below(150) {
            0 => guk.resize(random.pick(&[0, 15, 17, 32]), 0),
            1 => authentication.resize(random.pick(&[0, 15, 17, 32]), 0),
            2 => challenge.resize(random.pick(&[0, 7, 9, 16]), 0),
            3 => guk = random.bytes(16),
            _ => {}
        }
        let room = room(random);
        Call::Receive { frame, guk, authentication, challenge, room }
    }
}

/// The length of a reply room, seldom too short.
fn room(random: &mut Random) -> usize {
    match random.below(100) {
        0 => random.below(LONGEST_FRAME),
        1 => random.pick(&[0, 1, LONGEST_FRAME - 2, LONGEST_FRAME - 1]),
        2..=30 => random.between(LONGEST_FRAME + 1, 1000),
        _ => LONGEST_FRAME,
    }
}
