//! The model: the rules of document 01 on ordinary queues, the packing, the soundness test, the touched items.

pub mod layout;
mod numbers;
mod packing;
mod rules;
mod soundness;
mod state;
mod touched;

pub use layout::{table_length, ANSWER_WORDS};
pub use numbers::{name, Number, ALL as ALL_NUMBERS};
pub use packing::{pack, pack_into, PLACES};
pub use rules::{set_up, Action, Reply, Wiring};
pub use soundness::{read, sound, valid};
pub use state::{
    Alternation, Channel, Choice, Core, Exchange, Outcome, Place, Process, Progress, Side, State, Task, Word, Work,
};
pub use touched::{touched, Item};

pub mod number {
    //! The numbers by name.
    pub use super::numbers::*;
}

/// A call of the library: a set-up, or an action of a core (a request or a step).
#[derive(Clone, Debug, PartialEq, Eq)]
pub enum Call {
    SetUp(Wiring),
    Act { core: u32, action: Action },
}

/// What runs calls on a lent table: the model, a faulty variant of it, or the library.
pub trait Machine {
    /// Makes the call and gives the number returned.
    fn call(&mut self, table: &mut [u32], answer: &mut [u32], call: &Call) -> Number;
}

/// The model as a machine: each call reads the state out of the table and packs it again.
pub struct Model;

impl Machine for Model {
    fn call(&mut self, table: &mut [u32], answer: &mut [u32], call: &Call) -> Number {
        match call {
            Call::SetUp(wiring) => set_up_table(table, wiring),
            Call::Act { core, action } => act_on_table(table, answer, sound, |state| state.act(*core, action)).number,
        }
    }
}

/// Set-up on a lent table.
pub fn set_up_table(table: &mut [u32], wiring: &Wiring) -> Number {
    match set_up(wiring, table.len()) {
        Ok(state) => {
            table.copy_from_slice(&pack(&state));
            number::BUILT
        }
        Err(refusal) => refusal,
    }
}

/// A request or a step on a lent table, with the given soundness test and rule.
pub fn act_on_table(
    table: &mut [u32],
    answer: &mut [u32],
    sound: impl Fn(&[u32]) -> Option<State>,
    rule: impl Fn(&mut State) -> Reply,
) -> Reply {
    if answer.len() != ANSWER_WORDS {
        return Reply::refused(number::ANSWER);
    }
    let Some(mut state) = sound(table) else {
        return Reply::refused(number::DAMAGED);
    };
    let reply = rule(&mut state);
    if reply.accepted() {
        let packed = pack(&state);
        table.copy_from_slice(&packed);
        answer.copy_from_slice(&reply.words);
    }
    reply
}
