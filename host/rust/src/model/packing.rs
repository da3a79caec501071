//! The packing of a state into a table of 32-bit numbers.

use super::layout::{channel, core, header, place, process, progress, table_length, task, Layout};
use super::state::*;

/// The places.
pub const PLACES: [Place; 4] = [Place::Running, Place::Queued, Place::Asleep, Place::Ended];

/// Whether K, N and M are within their limits.
pub fn sizes_fit(cores: u32, processes: u32, channels: u32) -> bool {
    (1..=8).contains(&cores) && (1..=256).contains(&processes) && channels <= 256
}

/// The table that holds this state.
pub fn pack(state: &State) -> Vec<u32> {
    let mut table = Vec::new();
    pack_into(state, &mut table);
    table
}

/// The table that holds this state, into memory that is there already.
pub fn pack_into(state: &State, table: &mut Vec<u32>) {
    let (cores, processes, channels) = (state.cores.len(), state.processes.len(), state.channels.len());
    let layout = Layout { cores, processes };
    table.clear();
    table.resize(table_length(cores as u32, processes as u32, channels as u32), 0);
    table[header::CORES] = cores as u32;
    table[header::PROCESSES] = processes as u32;
    table[header::CHANNELS] = channels as u32;
    for (p, process) in (1..).zip(&state.processes) {
        pack_process(process, &mut table[layout.process(p)..][..process::WORDS]);
    }
    for (c, channel) in (1..).zip(&state.channels) {
        pack_channel(channel, &mut table[layout.channel(c)..][..channel::WORDS]);
    }
    for (k, core) in state.cores.iter().enumerate() {
        pack_core(core, &mut table[layout.core(k)..][..core::WORDS]);
        pack_links(core, layout, table);
    }
}

/// The channel word as a number.
pub fn word_number(word: Word) -> u32 {
    match word {
        Word::Nobody => 0,
        Word::Plain(q) => 2 * q,
        Word::Choosing(q) => 2 * q + 1,
    }
}

/// A channel's record, from words of 0.
fn pack_channel(channel: &Channel, words: &mut [u32]) {
    words[channel::WRITER] = channel.writer;
    words[channel::READER] = channel.reader;
    words[channel::WORD] = word_number(channel.word);
    words[channel::TRANSFERS] = channel.transfers;
}

/// A core's record, from words of 0.
fn pack_core(core: &Core, words: &mut [u32]) {
    let (running, task, of) = match core.work {
        Work::Running(p) => (p, task::NONE, 0),
        Work::Free(Task::None) => (0, task::NONE, 0),
        Work::Free(Task::Trigger(q)) => (0, task::TRIGGER, q),
        Work::Free(Task::Wake(q)) => (0, task::WAKE, q),
    };
    words[core::RUNNING] = running;
    words[core::TASK] = task;
    words[core::TASK_PROCESS] = of;
    words[core::ACTIVE_FIRST] = core.active.front().copied().unwrap_or(0);
    words[core::ACTIVE_LAST] = core.active.back().copied().unwrap_or(0);
    words[core::ACTIVE_SIZE] = core.active.len() as u32;
    words[core::DISPATCH] = core.dispatch;
    words[core::MARK] = u32::from(core.mark);
    words[core::RUN_FIRST] = core.run.front().and_then(|batch| batch.front()).copied().unwrap_or(0);
    words[core::RUN_LAST] = core.run.back().and_then(|batch| batch.front()).copied().unwrap_or(0);
}

/// The links of a core's queues, in the records of their processes.
fn pack_links(core: &Core, layout: Layout, table: &mut [u32]) {
    for queue in std::iter::once(&core.active).chain(&core.run) {
        for (before, after) in queue.iter().zip(queue.iter().skip(1)) {
            table[layout.process(*before) + process::NEXT] = *after;
        }
    }
    for (place, batch) in core.run.iter().enumerate() {
        if let (Some(head), Some(last)) = (batch.front(), batch.back()) {
            let follows = core.run.get(place + 1).and_then(|next| next.front());
            let words = &mut table[layout.process(*head)..];
            words[process::BATCH_LAST] = *last;
            words[process::BATCH_SIZE] = batch.len() as u32;
            words[process::BATCH_AFTER] = follows.copied().unwrap_or(0);
        }
    }
}

/// The number of a place.
pub fn place_number(place: Place) -> u32 {
    match place {
        Place::Running => place::RUNNING,
        Place::Queued => place::QUEUED,
        Place::Asleep => place::ASLEEP,
        Place::Ended => place::ENDED,
    }
}

/// A process's record without its links, from words of 0.
fn pack_process(process: &Process, words: &mut [u32]) {
    words[process::PLACE] = place_number(process.place);
    words[process::DATA] = process.data;
    words[process::ENABLING] = u32::from(process.alternation.enabling);
    words[process::NOT_READY] = u32::from(process.alternation.not_ready);
    words[process::WAITING] = u32::from(process.alternation.waiting);
    words[process::COUNT] = process.alternation.count;
    match &process.progress {
        Progress::Nothing => words[process::PROGRESS] = progress::NOTHING,
        Progress::Exchange { side, channel, at } => {
            let (number, partner) = exchange_words(*side, *at);
            words[process::PROGRESS] = number;
            words[process::CHANNEL] = *channel;
            words[process::PARTNER] = partner;
        }
        Progress::Choice { guards, at } => {
            let (number, index, first) = choice_words(*at);
            words[process::PROGRESS] = number;
            words[process::GUARDS] = guards.len() as u32;
            words[process::GUARD_INDEX] = index;
            words[process::FIRST_READY] = first.unwrap_or(0);
            words[process::FIRST_GUARD..][..guards.len()].copy_from_slice(guards);
        }
        Progress::Due(outcome) => {
            let (number, channel) = outcome_words(*outcome);
            words[process::PROGRESS] = number;
            words[process::CHANNEL] = channel;
        }
    }
}

/// The number of a stage of send or receive, and the partner.
fn exchange_words(side: Side, at: Exchange) -> (u32, u32) {
    let (send, receive, partner) = match at {
        Exchange::Look => (progress::SEND_LOOK, progress::RECEIVE_LOOK, 0),
        Exchange::Park => (progress::SEND_PARK, progress::RECEIVE_PARK, 0),
        Exchange::Copy(partner) => (progress::SEND_COPY, progress::RECEIVE_COPY, partner),
        Exchange::Clear(partner) => (progress::SEND_CLEAR, progress::RECEIVE_CLEAR, partner),
        Exchange::Wake(partner) => (progress::SEND_WAKE, progress::RECEIVE_WAKE, partner),
    };
    (if side == Side::Send { send } else { receive }, partner)
}

/// The number of a stage of a choice, the guard index and the first ready guard.
fn choice_words(at: Choice) -> (u32, u32, Option<u32>) {
    match at {
        Choice::Look(index) => (progress::CHOOSE_LOOK, index, None),
        Choice::Raise(index) => (progress::CHOOSE_RAISE, index, None),
        Choice::Place(index) => (progress::CHOOSE_PLACE, index, None),
        Choice::ReadyFromLook(index) => (progress::CHOOSE_READY_FROM_LOOK, index, None),
        Choice::ReadyFromPlace(index) => (progress::CHOOSE_READY_FROM_PLACE, index, None),
        Choice::Wait => (progress::CHOOSE_WAIT, 0, None),
        Choice::Disable { index, first } => (progress::CHOOSE_DISABLE, index, first),
        Choice::Lower { index, first } => (progress::CHOOSE_LOWER, index, first),
        Choice::Finish { first } => (progress::CHOOSE_FINISH, 0, first),
    }
}

/// The number of an outcome, and its channel.
fn outcome_words(outcome: Outcome) -> (u32, u32) {
    match outcome {
        Outcome::Go => (progress::DUE_GO, 0),
        Outcome::Sent(channel) => (progress::DUE_SENT, channel),
        Outcome::Got(channel) => (progress::DUE_GOT, channel),
        Outcome::Chose(channel) => (progress::DUE_CHOSE, channel),
    }
}
