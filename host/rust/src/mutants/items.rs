//! Faulty lists of touched items.

use std::collections::BTreeSet;

use super::{Fault, Mutant, Touched};
use crate::model::*;

/// Every variant with a faulty list.
pub fn all() -> Vec<Mutant> {
    FAULTS.to_vec()
}

/// A variant with this fault.
const fn list(name: &'static str, fault: Touched) -> Mutant {
    Mutant { name, fault: Fault::Touched(fault) }
}

/// The faults.
const FAULTS: &[Mutant] = &[
    list("a list without the alternation state", |state, core, action| {
        without(state, core, action, |item| matches!(item, Item::Alternation(_)))
    }),
    list("a list without the channel word", |state, core, action| {
        without(state, core, action, |item| matches!(item, Item::Word(_)))
    }),
    list("a list without the data words of others", |state, core, action| {
        let p = running(state, core);
        without(state, core, action, |item| matches!(item, Item::Data(q) if Some(*q) != p))
    }),
    list("a list without the data word of the running process", |state, core, action| {
        let p = running(state, core);
        without(state, core, action, |item| matches!(item, Item::Data(q) if Some(*q) == p))
    }),
    list("a list without the place of the running process", |state, core, action| {
        let p = running(state, core);
        without(state, core, action, |item| matches!(item, Item::Place(q) if Some(*q) == p))
    }),
    list("a list without the places of those asleep", |state, core, action| {
        let asleep = |p: u32| state.process(p).place == Place::Asleep;
        without(state, core, action, |item| matches!(item, Item::Place(q) if asleep(*q)))
    }),
    list("a take's list without the data of the taken", |state, core, action| {
        let queued = |p: u32| state.process(p).place == Place::Queued;
        without(state, core, action, |item| matches!(item, Item::Data(q) if queued(*q)))
    }),
    list("a refused step has an empty list", |state, core, action| match action {
        Action::Step if matches!(state.clone().act(core, action).number, number::FAULT) => BTreeSet::new(),
        _ => touched(state, core, action),
    }),
];

/// The right list without some items.
fn without(state: &State, core: u32, action: &Action, drop: impl Fn(&Item) -> bool) -> BTreeSet<Item> {
    touched(state, core, action).into_iter().filter(|item| !drop(item)).collect()
}

/// The process that runs on a core, where both exist.
fn running(state: &State, core: u32) -> Option<u32> {
    let core = core as usize;
    if core < state.cores.len() {
        state.running(core)
    } else {
        None
    }
}
