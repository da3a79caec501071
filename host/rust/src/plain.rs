//! The calls in ordinary safe Rust on the lent table itself: the same packing, the same links and the same check as the library's,
//! so that the two can be timed on the same work. Written from docs/PACKING.md and document 01.

mod choice;
mod exchange;
mod layout;
mod queues;
mod records;
mod requests;
mod soundness;

pub use records::Card;
pub use soundness::sound;

use self::layout::{header, ANSWER_WORDS};
use crate::model::number::*;
use crate::model::{Action, Call, Machine, Number};

/// The number that a call returns and its answer words; a refusal has none.
#[derive(Clone, Copy, Debug, PartialEq, Eq)]
pub struct Reply {
    pub number: Number,
    pub process: u32,
    pub channel: u32,
    pub value: u32,
}

impl Reply {
    /// A reply with its words.
    fn new(number: Number, process: u32, channel: u32, value: u32) -> Reply {
        Reply { number, process, channel, value }
    }

    /// The reply of a step that names none.
    fn moved() -> Reply {
        Reply::new(MOVED, 0, 0, 0)
    }

    /// A refusal.
    fn refused(number: Number) -> Reply {
        Reply::new(number, 0, 0, 0)
    }
}

/// The plain version as a machine.
pub struct Plain;

impl Machine for Plain {
    fn call(&mut self, table: &mut [u32], answer: &mut [u32], call: &Call) -> Number {
        match call {
            Call::SetUp(wiring) => requests::set_up(table, wiring),
            Call::Act { core, action } => {
                if let Some(refusal) = refused_first(table, answer, *core) {
                    return refusal;
                }
                tell(answer, act(table, *core, action))
            }
        }
    }
}

/// What a call is refused for before its rule is looked at.
pub fn refused_first(table: &[u32], answer: &[u32], core: u32) -> Option<Number> {
    if answer.len() != ANSWER_WORDS {
        Some(ANSWER)
    } else if !sound(table) {
        Some(DAMAGED)
    } else if core >= table[header::CORES] {
        Some(CORE)
    } else {
        None
    }
}

/// Writes the words of an accepted call, and gives its number.
pub fn tell(answer: &mut [u32], reply: Reply) -> Number {
    if reply.number < FIRST_REFUSAL {
        answer.copy_from_slice(&[reply.process, reply.channel, reply.value]);
    }
    reply.number
}

/// A request or a step of a core that exists, on a sound table.
fn act(table: &mut [u32], core: u32, action: &Action) -> Reply {
    let (mut card, core) = (Card::of(table), core as usize);
    match action {
        Action::Send { channel, value } => card.send(core, *channel, *value),
        Action::Receive { channel } => card.receive(core, *channel),
        Action::Choose { guards } => card.choose(core, guards),
        Action::Yield => card.give_way(core),
        Action::End => card.end(core),
        Action::Step => card.step(core),
    }
}
