//! What is timed: the library, the plain version and the model, each on the same calls.

use fontarisca_host::model::{self, Machine, Model, Number, State, ANSWER_WORDS};
use fontarisca_host::plain::{self, Card};

use crate::ring::{action, Call};

/// The lent table and answer.
pub struct Lent {
    pub table: Vec<u32>,
    pub answer: [u32; ANSWER_WORDS],
}

impl Lent {
    /// This table, and an answer of zeros.
    pub fn of(table: &[u32]) -> Lent {
        Lent { table: table.to_vec(), answer: [0; ANSWER_WORDS] }
    }
}

/// One whose calls are timed. Its functions are called as the library's are: none is inlined into the loop that times it.
pub trait Subject {
    /// Takes this table.
    fn begin(&mut self, lent: &mut Lent, table: &[u32]) {
        lent.table.copy_from_slice(table);
    }

    /// A whole call.
    fn call(&mut self, lent: &mut Lent, call: Call) -> Number;

    /// The check alone: what it says of a sound table is CORE, for a core that doesn't exist.
    fn check(&mut self, lent: &mut Lent) -> Number;

    /// A call without the check.
    fn unchecked(&mut self, lent: &mut Lent, call: Call) -> Number;

    /// The table after calls without the check.
    fn table(&self, lent: &Lent) -> Vec<u32> {
        lent.table.clone()
    }
}

/// A core that no table has.
const NO_CORE: u32 = u32::MAX;

extern "C" {
    fn fontarisca_send(
        t: *mut u32,
        t_len: usize,
        a: *mut u32,
        a_len: usize,
        core: u32,
        channel: u32,
        value: u32,
    ) -> u32;
    fn fontarisca_receive(t: *mut u32, t_len: usize, a: *mut u32, a_len: usize, core: u32, channel: u32) -> u32;
    fn fontarisca_step(t: *mut u32, t_len: usize, a: *mut u32, a_len: usize, core: u32) -> u32;
    fn unchecked_send(t: *mut u32, t_len: usize, a: *mut u32, a_len: usize, core: u32, channel: u32, value: u32)
        -> u32;
    fn unchecked_receive(t: *mut u32, t_len: usize, a: *mut u32, a_len: usize, core: u32, channel: u32) -> u32;
    fn unchecked_step(t: *mut u32, t_len: usize, a: *mut u32, a_len: usize, core: u32) -> u32;
}

/// The library.
pub struct Library;

impl Subject for Library {
    fn call(&mut self, lent: &mut Lent, call: Call) -> Number {
        let (t, t_len, a) = (lent.table.as_mut_ptr(), lent.table.len(), lent.answer.as_mut_ptr());
        // SAFETY: the pointers are of slices with these lengths, which outlive the call.
        unsafe {
            match call {
                Call::Step { core } => fontarisca_step(t, t_len, a, ANSWER_WORDS, core),
                Call::Send { core, channel, value } => fontarisca_send(t, t_len, a, ANSWER_WORDS, core, channel, value),
                Call::Receive { core, channel } => fontarisca_receive(t, t_len, a, ANSWER_WORDS, core, channel),
            }
        }
    }

    fn check(&mut self, lent: &mut Lent) -> Number {
        self.call(lent, Call::Step { core: NO_CORE })
    }

    fn unchecked(&mut self, lent: &mut Lent, call: Call) -> Number {
        let (t, t_len, a) = (lent.table.as_mut_ptr(), lent.table.len(), lent.answer.as_mut_ptr());
        // SAFETY: as above; the table is sound and the core exists.
        unsafe {
            match call {
                Call::Step { core } => unchecked_step(t, t_len, a, ANSWER_WORDS, core),
                Call::Send { core, channel, value } => unchecked_send(t, t_len, a, ANSWER_WORDS, core, channel, value),
                Call::Receive { core, channel } => unchecked_receive(t, t_len, a, ANSWER_WORDS, core, channel),
            }
        }
    }
}

/// The plain version.
pub struct Plain;

#[inline(never)]
fn refused_first(table: &[u32], answer: &[u32], core: u32) -> Option<Number> {
    plain::refused_first(table, answer, core)
}

#[inline(never)]
fn checked_step(table: &mut [u32], answer: &mut [u32], core: u32) -> Number {
    refused_first(table, answer, core).unwrap_or_else(|| plain::tell(answer, Card::of(table).step(core as usize)))
}

#[inline(never)]
fn checked_send(table: &mut [u32], answer: &mut [u32], core: u32, channel: u32, value: u32) -> Number {
    refused_first(table, answer, core)
        .unwrap_or_else(|| plain::tell(answer, Card::of(table).send(core as usize, channel, value)))
}

#[inline(never)]
fn checked_receive(table: &mut [u32], answer: &mut [u32], core: u32, channel: u32) -> Number {
    refused_first(table, answer, core)
        .unwrap_or_else(|| plain::tell(answer, Card::of(table).receive(core as usize, channel)))
}

#[inline(never)]
fn plain_step(table: &mut [u32], answer: &mut [u32], core: u32) -> Number {
    plain::tell(answer, Card::of(table).step(core as usize))
}

#[inline(never)]
fn plain_send(table: &mut [u32], answer: &mut [u32], core: u32, channel: u32, value: u32) -> Number {
    plain::tell(answer, Card::of(table).send(core as usize, channel, value))
}

#[inline(never)]
fn plain_receive(table: &mut [u32], answer: &mut [u32], core: u32, channel: u32) -> Number {
    plain::tell(answer, Card::of(table).receive(core as usize, channel))
}

impl Subject for Plain {
    fn call(&mut self, lent: &mut Lent, call: Call) -> Number {
        let Lent { table, answer } = lent;
        match call {
            Call::Step { core } => checked_step(table, answer, core),
            Call::Send { core, channel, value } => checked_send(table, answer, core, channel, value),
            Call::Receive { core, channel } => checked_receive(table, answer, core, channel),
        }
    }

    fn check(&mut self, lent: &mut Lent) -> Number {
        checked_step(&mut lent.table, &mut lent.answer, NO_CORE)
    }

    fn unchecked(&mut self, lent: &mut Lent, call: Call) -> Number {
        let Lent { table, answer } = lent;
        match call {
            Call::Step { core } => plain_step(table, answer, core),
            Call::Send { core, channel, value } => plain_send(table, answer, core, channel, value),
            Call::Receive { core, channel } => plain_receive(table, answer, core, channel),
        }
    }
}

/// The model: it reads its state out of the table and packs it again; without the check it keeps its state.
pub struct Modelled {
    pub state: Option<State>,
}

impl Subject for Modelled {
    fn begin(&mut self, lent: &mut Lent, table: &[u32]) {
        lent.table.copy_from_slice(table);
        self.state = model::sound(table);
    }

    fn call(&mut self, lent: &mut Lent, call: Call) -> Number {
        let call = model::Call::Act { core: call.core(), action: action(call) };
        Model.call(&mut lent.table, &mut lent.answer, &call)
    }

    fn check(&mut self, lent: &mut Lent) -> Number {
        self.call(lent, Call::Step { core: NO_CORE })
    }

    fn unchecked(&mut self, lent: &mut Lent, call: Call) -> Number {
        let state = self.state.as_mut().expect("the table was sound");
        let reply = state.act(call.core(), &action(call));
        lent.answer = reply.words;
        reply.number
    }

    fn table(&self, _lent: &Lent) -> Vec<u32> {
        model::pack(self.state.as_ref().expect("the table was sound"))
    }
}
