//! One call on the library and on the second meter, and everything that the two must have in common afterwards.

use crate::library::{self, Answer};
use crate::random::Random;
use cases::hexadecimal::hex;
use reference::explanation::Explanation;
use reference::image;
use reference::library::{Call, State};
use reference::receive::Outcome;

/// The numbers after which the state may be another: accepted, and the refusals 7, 12 and 13.
const CHANGING: [u8; 4] = [0, 7, 12, 13];

/// The state buffer of the library and the state of the second meter.
#[derive(Clone)]
pub struct Bench {
    pub image: Vec<u8>,
    pub state: State,
}

/// What both came to, why the second meter says a frame did, and the reply room as the library left it.
pub struct Agreement {
    pub outcome: Outcome,
    pub explanation: Option<Explanation>,
    pub room: Vec<u8>,
}

impl Bench {
    pub fn new(image: Vec<u8>) -> Bench {
        let state = State::of(&image);
        Bench { image, state }
    }

    /// The call on both; an error tells all about a difference.
    pub fn call(&mut self, random: &mut Random, call: &Call) -> Result<Agreement, String> {
        let image_before = self.image.clone();
        let room_before = match call {
            Call::Receive { room, .. } => random.bytes(*room),
            _ => vec![],
        };
        let mut room = room_before.clone();
        let explanation = self.state.explain(call);
        let outcome = self.state.answer(call);
        let offsets = (random.between(16, 23), random.between(16, 23));
        let answer = library::call(call, &mut self.image, &mut room, offsets);
        let difference = answer_difference(call, &outcome, &answer)
            .or_else(|| room_difference(&outcome, &room_before, &room))
            .or_else(|| self.state_difference(&outcome, &image_before))
            .or_else(|| self.byte_difference(&outcome))
            .or_else(|| self.memory_of_before(random, call, &outcome))
            .or_else(|| explained_difference(explanation, &answer));
        match difference {
            None => Ok(Agreement { outcome, explanation, room }),
            Some(what) => Err(self.told(what, call, &image_before, &outcome, &answer, &room)),
        }
    }

    fn state_difference(&self, outcome: &Outcome, image_before: &[u8]) -> Option<&'static str> {
        if !CHANGING.contains(&outcome.number) && self.image != image_before {
            return Some("a refusal changed the state buffer");
        }
        (State::of(&self.image) != self.state).then_some("the states after the call differ")
    }

    /// A call that may change the meter writes its one image: zeros in all that the meter does not hold.
    fn byte_difference(&self, outcome: &Outcome) -> Option<&'static str> {
        let meter = self.state.meter().filter(|_| CHANGING.contains(&outcome.number))?;
        (self.image != image::write(meter, &[0; image::SIZE]))
            .then_some("the state buffer is not the image of its meter")
    }

    /// A new meter must not depend on what the buffer held: here it holds something else.
    fn memory_of_before(&self, random: &mut Random, call: &Call, outcome: &Outcome) -> Option<&'static str> {
        if !matches!(call, Call::New { .. }) || outcome.number != 0 {
            return None;
        }
        let mut other = random.bytes(self.image.len());
        library::call(call, &mut other, &mut [], (16, 16));
        (other != self.image).then_some("a new meter depends on what the buffer held")
    }

    /// All that is needed to go through a difference by hand.
    fn told(
        &self,
        what: &str,
        call: &Call,
        image_before: &[u8],
        outcome: &Outcome,
        answer: &Answer,
        room: &[u8],
    ) -> String {
        let lines = [
            format!("DIFFERENCE: {what}"),
            format!("call: {}", told_call(call)),
            format!("state buffer before: {}", hex(image_before)),
            format!("reference: number {} ({}), {} bytes sent", outcome.number, outcome.event, outcome.reply.len()),
            format!("reference's explanation: {:?}", State::of(image_before).explain(call)),
            format!("reference's reply: {}", hex(&outcome.reply)),
            format!(
                "library: number {}, {} bytes sent, guards stand: {}",
                answer.number, answer.sent, answer.guards_stand
            ),
            format!("library's reply room: {}", hex(room)),
            format!("library's state buffer after: {}", hex(&self.image)),
            format!("reference's state after: {:?}", self.state),
            format!("library's state after: {:?}", State::of(&self.image)),
        ];
        lines.join("\n")
    }
}

fn answer_difference(call: &Call, outcome: &Outcome, answer: &Answer) -> Option<&'static str> {
    if !answer.guards_stand {
        return Some("bytes beside a lent buffer were written");
    }
    if answer.number != outcome.number {
        return Some("the numbers differ");
    }
    let counted = matches!(call, Call::Receive { .. }) && answer.sent != outcome.reply.len();
    counted.then_some("the lengths of what goes out differ")
}

/// The explanation, which asks no frame call, has the number that the library answers.
fn explained_difference(explanation: Option<Explanation>, answer: &Answer) -> Option<&'static str> {
    (explanation?.number != answer.number).then_some("the explanation has another number")
}

/// The reply stands in front; every byte behind it is as it was lent.
fn room_difference(outcome: &Outcome, before: &[u8], after: &[u8]) -> Option<&'static str> {
    let (reply, behind) = after.split_at(outcome.reply.len());
    if reply != outcome.reply {
        return Some("the replies differ");
    }
    (behind != &before[reply.len()..]).then_some("bytes of the reply room behind the frame changed")
}

fn told_call(call: &Call) -> String {
    match call {
        Call::New { device, title, v_title, h_title } => {
            format!("new, device {} titles {} {} {}", hex(device), hex(title), hex(v_title), hex(h_title))
        }
        Call::GiveRegisters(records) => format!("give registers {}", hex(records)),
        Call::SetValue(name, value) => format!("set value of {} to {value}", hex(name)),
        Call::SetColumns(names) => format!("set columns {}", hex(names)),
        Call::SetPeriod(period) => format!("set period {period}"),
        Call::Tick(clock) => format!("tick {}", hex(clock)),
        Call::SetP5(held) => format!("set P5 {held}"),
        Call::PowerUp => "power-up".into(),
        Call::Receive { frame, guk, authentication, challenge, room } => {
            let (guk, ak, challenge) = (hex(guk), hex(authentication), hex(challenge));
            format!("receive {}, GUK {guk}, AK {ak}, challenge {challenge}, room {room}", hex(frame))
        }
    }
}
