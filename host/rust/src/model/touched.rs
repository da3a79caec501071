//! The items that a call touches, read off the state before it.

use std::collections::BTreeSet;

use super::rules::Action;
use super::state::*;

/// An item: the record of a core, or a part of a process or of a channel.
#[derive(Clone, Copy, Debug, PartialEq, Eq, PartialOrd, Ord)]
pub enum Item {
    Core(usize),
    Progress(u32),
    Data(u32),
    Place(u32),
    Alternation(u32),
    Word(u32),
    Transfers(u32),
}

/// The items that an action of a core touches, accepted or refused.
pub fn touched(state: &State, core: u32, action: &Action) -> BTreeSet<Item> {
    let core = core as usize;
    let mut items = BTreeSet::new();
    if core >= state.cores.len() {
        return items;
    }
    items.insert(Item::Core(core));
    if let Some(p) = state.running(core) {
        items.extend([Item::Progress(p), Item::Data(p), Item::Place(p)]);
    }
    let besides = match action {
        Action::Step => of_step(state, core),
        request => of_request(state, core, request),
    };
    if let Some(besides) = besides {
        items.extend(state.cores[core].queued().map(Item::Place));
        items.extend(besides);
    }
    items
}

/// What a request touches besides; nothing where it has no step.
fn of_request(state: &State, core: usize, request: &Action) -> Option<Vec<Item>> {
    let p = state.request_allowed(core, request).ok()?;
    match request {
        Action::Choose { .. } => Some(vec![Item::Alternation(p)]),
        _ => Some(vec![]),
    }
}

/// What a step touches besides; nothing where there is no step.
fn of_step(state: &State, core: usize) -> Option<Vec<Item>> {
    match state.cores[core].work {
        Work::Running(p) => match &state.process(p).progress {
            Progress::Nothing | Progress::Due(_) => None,
            Progress::Exchange { channel, at, .. } => Some(of_exchange(*channel, *at)),
            Progress::Choice { guards, at } => Some(of_choice(p, guards, *at)),
        },
        Work::Free(Task::Trigger(q)) => Some(vec![Item::Alternation(q)]),
        Work::Free(Task::Wake(q)) => Some(vec![Item::Place(q)]),
        Work::Free(Task::None) => Some(of_schedule(&state.cores[core])),
    }
}

/// What a step of send or receive touches besides.
fn of_exchange(channel: u32, at: Exchange) -> Vec<Item> {
    match at {
        Exchange::Look | Exchange::Park | Exchange::Clear(_) => vec![Item::Word(channel)],
        Exchange::Copy(partner) => vec![Item::Transfers(channel), Item::Data(partner)],
        Exchange::Wake(partner) => vec![Item::Place(partner)],
    }
}

/// What a step of choosing touches besides.
fn of_choice(p: u32, guards: &[u32], at: Choice) -> Vec<Item> {
    match at {
        Choice::Look(index) | Choice::Place(index) | Choice::Disable { index, .. } => {
            vec![Item::Word(guards[index as usize - 1])]
        }
        Choice::Raise(_) | Choice::ReadyFromLook(_) | Choice::ReadyFromPlace(_) => vec![Item::Alternation(p)],
        Choice::Wait | Choice::Lower { .. } | Choice::Finish { .. } => vec![Item::Alternation(p)],
    }
}

/// What a take touches besides; store, load and idle touch no more than the core's record and queues.
fn of_schedule(core: &Core) -> Vec<Item> {
    match core.active.front() {
        Some(head) if core.dispatch > 0 => vec![Item::Progress(*head), Item::Data(*head)],
        _ => vec![],
    }
}
