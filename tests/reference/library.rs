//! The calls of include/birlimock.h as the header words them: what each answers on a state buffer, sound or not.

use crate::explanation::Explanation;
use crate::image::{self, NO_STATE, WRONG_SIZE, WRONG_VERSION};
use crate::meter::Meter;
use crate::receive::{Lent, Outcome};

const WRONG_ARGUMENT: u8 = 104;

/// A call with all that it is lent but the state buffer; of the reply room the length.
#[derive(Clone, Debug)]
pub enum Call {
    New { device: Vec<u8>, title: Vec<u8>, v_title: Vec<u8>, h_title: Vec<u8> },
    GiveRegisters(Vec<u8>),
    SetValue(Vec<u8>, u32),
    SetColumns(Vec<u8>),
    SetPeriod(u32),
    Tick(Vec<u8>),
    SetP5(u32),
    PowerUp,
    Receive { frame: Vec<u8>, guk: Vec<u8>, authentication: Vec<u8>, challenge: Vec<u8>, room: usize },
}

/// What a state buffer is to the library.
#[derive(Clone, Debug, PartialEq)]
pub enum State {
    /// No state: by the refusal 101, 102 or 3.
    Refused(u8),
    Held(Box<Meter>),
}

impl State {
    pub fn of(image: &[u8]) -> State {
        match image::read(image) {
            Ok(meter) => State::Held(Box::new(meter)),
            Err(refusal) => State::Refused(refusal),
        }
    }

    pub fn meter(&self) -> Option<&Meter> {
        match self {
            State::Held(meter) => Some(meter),
            State::Refused(_) => None,
        }
    }

    /// What the call comes to; the state is then the one after it.
    pub fn answer(&mut self, call: &Call) -> Outcome {
        if let Call::New { device, title, v_title, h_title } = call {
            return self.renew(new_meter(device, title, v_title, h_title));
        }
        match self {
            State::Refused(refusal) => no_state_answer(*refusal, call),
            State::Held(meter) => held_answer(meter, call),
        }
    }

    /// Why a frame call would be refused, where the buffer is a state. The library itself does not tell.
    pub fn explain(&self, call: &Call) -> Option<Explanation> {
        let Call::Receive { frame, guk, authentication, challenge, room } = call else { return None };
        Some(self.meter()?.explain(frame, &Lent { guk, authentication, challenge, room: *room }))
    }

    fn renew(&mut self, meter: Option<Meter>) -> Outcome {
        match (&self, meter) {
            (State::Refused(WRONG_SIZE), _) => Outcome::silent(WRONG_SIZE, refused_event(WRONG_SIZE)),
            (_, None) => Outcome::silent(WRONG_ARGUMENT, refused_event(WRONG_ARGUMENT)),
            (_, Some(meter)) => {
                *self = State::Held(Box::new(meter));
                Outcome::silent(0, "new meter")
            }
        }
    }
}

fn refused_event(refusal: u8) -> &'static str {
    match refusal {
        WRONG_SIZE => "state buffer of another size",
        WRONG_VERSION => "state buffer of another version",
        NO_STATE => "state buffer with a byte that no meter has",
        _ => "argument wrong",
    }
}

/// A frame call tests what it is lent before the state.
fn no_state_answer(refusal: u8, call: &Call) -> Outcome {
    if let Call::Receive { guk, authentication, challenge, room, .. } = call {
        if let Some(refused) = (Lent { guk, authentication, challenge, room: *room }).refusal() {
            return refused;
        }
    }
    Outcome::silent(refusal, refused_event(refusal))
}

/// The number of an argument that cannot be taken: document 01's where it knows the fault.
fn fault(call: &Call) -> u8 {
    match call {
        Call::Tick(_) => 14,
        Call::GiveRegisters(_) => 16,
        Call::SetValue(..) => 17,
        Call::SetColumns(_) => 18,
        _ => WRONG_ARGUMENT,
    }
}

fn new_meter(device: &[u8], title: &[u8], v_title: &[u8], h_title: &[u8]) -> Option<Meter> {
    let [title, v_title, h_title] = [title, v_title, h_title].map(|title| title.try_into().ok());
    Some(Meter::new(device.try_into().ok()?, title?, v_title?, h_title?))
}

fn held_answer(meter: &mut Meter, call: &Call) -> Outcome {
    if let Call::Receive { frame, guk, authentication, challenge, room } = call {
        return meter.receive(frame, &Lent { guk, authentication, challenge, room: *room });
    }
    match owner_call(meter, call) {
        None if meter.is_sound() => Outcome::silent(fault(call), refused_event(WRONG_ARGUMENT)),
        None => Outcome::silent(3, "owner's call refused"),
        Some(0) => Outcome::silent(0, "owner's call accepted"),
        Some(refusal) => Outcome::silent(refusal, "owner's call refused"),
    }
}

/// The number of an owner's call; `None` where an argument is wrong.
fn owner_call(meter: &mut Meter, call: &Call) -> Option<u8> {
    Some(match call {
        Call::GiveRegisters(records) => meter.give_registers(image::read_registers(records)?),
        Call::SetValue(name, value) => meter.set_value(name[..].try_into().ok()?, *value),
        Call::SetColumns(names) => meter.set_columns(image::read_names(names)?),
        Call::SetPeriod(period) => meter.set_period(*period),
        Call::Tick(clock) => meter.tick(clock[..].try_into().ok()?),
        Call::SetP5(held @ 0..=1) => meter.set_p5(*held == 1),
        Call::SetP5(_) => return None,
        Call::PowerUp => meter.power_up(),
        Call::New { .. } | Call::Receive { .. } => unreachable!("answered before"),
    })
}
