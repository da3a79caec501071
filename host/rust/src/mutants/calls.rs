//! Faults around the rules: set-up, the order of refusals, and what is written where.

use super::{Fault, Mutant};
use crate::model::number::*;
use crate::model::*;

/// Every variant with a fault around the rules.
pub fn all() -> Vec<Mutant> {
    FAULTS.to_vec()
}

/// A variant with this fault.
const fn call(name: &'static str, fault: fn(&mut [u32], &mut [u32], &Call) -> Number) -> Mutant {
    Mutant { name, fault: Fault::Call(fault) }
}

/// The faults.
const FAULTS: &[Mutant] = &[
    call("the core is looked at before the table", |table, answer, call| match call {
        Call::Act { core, .. } if answer.len() == ANSWER_WORDS && *core >= cores(table) => CORE,
        _ => Model.call(table, answer, call),
    }),
    call("the table is looked at before the answer", |table, answer, call| match call {
        Call::Act { .. } if sound(table).is_none() => DAMAGED,
        _ => Model.call(table, answer, call),
    }),
    call("an answer of four words is let pass", |table, answer, call| match call {
        Call::Act { .. } if answer.len() == ANSWER_WORDS + 1 => Model.call(table, &mut answer[..ANSWER_WORDS], call),
        _ => Model.call(table, answer, call),
    }),
    call("a refusal writes the answer", |table, answer, call| {
        let number = Model.call(table, answer, call);
        if number >= FIRST_REFUSAL {
            answer.fill(0);
        }
        number
    }),
    call("idle leaves the answer as it was", |table, answer, call| {
        let before = answer.to_vec();
        let number = Model.call(table, answer, call);
        if number == IDLE {
            answer.copy_from_slice(&before);
        }
        number
    }),
    call("every call is refused", |table, answer, call| match call {
        Call::Act { .. } => BUSY,
        _ => Model.call(table, answer, call),
    }),
    call("every step answers MOVED", |table, answer, call| {
        let number = Model.call(table, answer, call);
        if matches!(call, Call::Act { action: Action::Step, .. }) && number < FIRST_REFUSAL {
            answer.fill(0);
            return MOVED;
        }
        number
    }),
    call("the table is never written", |table, answer, call| {
        let before = table.to_vec();
        let number = Model.call(table, answer, call);
        table.copy_from_slice(&before);
        number
    }),
    call("set-up starts at core 1", |table, answer, call| {
        let number = Model.call(table, answer, call);
        if let (Call::SetUp(_), BUILT) = (call, number) {
            let mut state = sound(table).expect("set-up leaves a sound table");
            state.cores.rotate_right(1);
            table.copy_from_slice(&pack(&state));
        }
        number
    }),
    call("set-up looks at the room before the pairs", |table, answer, call| {
        let number = Model.call(table, answer, call);
        match call {
            Call::SetUp(wiring) if number == PAIRS => {
                let length = table_length(wiring.cores, wiring.processes, wiring.channels);
                if length == table.len() {
                    PAIRS
                } else {
                    ROOM
                }
            }
            _ => number,
        }
    }),
    call("set-up looks at all names before any pair", |table, answer, call| {
        let number = Model.call(table, answer, call);
        match call {
            Call::SetUp(wiring) if number == SELF => {
                let good = wiring.pairs.iter().all(|name| (1..=wiring.processes).contains(name));
                if good {
                    SELF
                } else {
                    NAME
                }
            }
            _ => number,
        }
    }),
];

/// The number of cores that a table says it has.
fn cores(table: &[u32]) -> u32 {
    table.get(layout::header::CORES).copied().unwrap_or(0)
}
