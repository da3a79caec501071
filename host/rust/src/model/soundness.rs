//! The soundness test: reads a state out of a table, tests it, and packs it again.

use std::collections::VecDeque;

use super::layout::{channel, core, header, process, progress, table_length, task, Layout};
use super::packing::*;
use super::state::*;

/// The state of a sound table; nothing where the table isn't sound.
pub fn sound(table: &[u32]) -> Option<State> {
    let state = read(table)?;
    (valid(&state) && pack(&state) == table).then_some(state)
}

/// The state that the words say, where they say one; it may not be valid.
pub fn read(table: &[u32]) -> Option<State> {
    let [cores, processes, channels] =
        [*table.get(header::CORES)?, *table.get(header::PROCESSES)?, *table.get(header::CHANNELS)?];
    if !sizes_fit(cores, processes, channels) || table.len() != table_length(cores, processes, channels) {
        return None;
    }
    let layout = Layout { cores: cores as usize, processes: processes as usize };
    Some(State {
        cores: (0..layout.cores).map(|k| read_core(table, layout, k)).collect::<Option<_>>()?,
        processes: (1..=processes).map(|p| read_process(&table[layout.process(p)..])).collect::<Option<_>>()?,
        channels: (1..=channels).map(|c| read_channel(&table[layout.channel(c)..])).collect(),
    })
}

/// A flag, which is 0 or 1.
fn flag(word: u32) -> Option<bool> {
    match word {
        0 => Some(false),
        1 => Some(true),
        _ => None,
    }
}

/// A core's record and its queues.
fn read_core(table: &[u32], layout: Layout, k: usize) -> Option<Core> {
    let words = &table[layout.core(k)..][..core::WORDS];
    let of = words[core::TASK_PROCESS];
    let work = match (words[core::RUNNING], words[core::TASK]) {
        (0, task::NONE) => Work::Free(Task::None),
        (0, task::TRIGGER) => Work::Free(Task::Trigger(of)),
        (0, task::WAKE) => Work::Free(Task::Wake(of)),
        (0, _) => return None,
        (p, _) => Work::Running(p),
    };
    let mut run = VecDeque::new();
    for head in chain(table, layout, words[core::RUN_FIRST], process::BATCH_AFTER)? {
        run.push_back(chain(table, layout, head, process::NEXT)?);
    }
    let active = chain(table, layout, words[core::ACTIVE_FIRST], process::NEXT)?;
    Some(Core { work, active, dispatch: words[core::DISPATCH], mark: flag(words[core::MARK])?, run })
}

/// The processes of a chain through a word of their records; nothing where it goes round or astray.
fn chain(table: &[u32], layout: Layout, first: u32, link: usize) -> Option<VecDeque<u32>> {
    let mut found = VecDeque::new();
    let mut next = first;
    while next != 0 {
        if next as usize > layout.processes || found.len() == layout.processes {
            return None;
        }
        found.push_back(next);
        next = table[layout.process(next) + link];
    }
    Some(found)
}

/// A process's record without its links.
fn read_process(words: &[u32]) -> Option<Process> {
    let place = PLACES.into_iter().find(|place| place_number(*place) == words[process::PLACE])?;
    let alternation = Alternation {
        enabling: flag(words[process::ENABLING])?,
        not_ready: flag(words[process::NOT_READY])?,
        waiting: flag(words[process::WAITING])?,
        count: words[process::COUNT],
    };
    Some(Process { place, data: words[process::DATA], alternation, progress: read_progress(words)? })
}

/// A process's progress.
fn read_progress(words: &[u32]) -> Option<Progress> {
    let (number, channel) = (words[process::PROGRESS], words[process::CHANNEL]);
    match number {
        progress::NOTHING => Some(Progress::Nothing),
        progress::DUE_GO => Some(Progress::Due(Outcome::Go)),
        progress::DUE_SENT => Some(Progress::Due(Outcome::Sent(channel))),
        progress::DUE_GOT => Some(Progress::Due(Outcome::Got(channel))),
        progress::DUE_CHOSE => Some(Progress::Due(Outcome::Chose(channel))),
        _ => match read_exchange(number, words[process::PARTNER]) {
            Some((side, at)) => Some(Progress::Exchange { side, channel, at }),
            None => {
                let at = read_choice(number, words[process::GUARD_INDEX], words[process::FIRST_READY])?;
                let places = &words[process::FIRST_GUARD..=process::LAST_GUARD];
                let guards = places.get(..words[process::GUARDS] as usize)?.to_vec();
                Some(Progress::Choice { guards, at })
            }
        },
    }
}

/// The stage of send or receive by its number.
fn read_exchange(number: u32, partner: u32) -> Option<(Side, Exchange)> {
    match number {
        progress::SEND_LOOK => Some((Side::Send, Exchange::Look)),
        progress::SEND_PARK => Some((Side::Send, Exchange::Park)),
        progress::SEND_COPY => Some((Side::Send, Exchange::Copy(partner))),
        progress::SEND_CLEAR => Some((Side::Send, Exchange::Clear(partner))),
        progress::SEND_WAKE => Some((Side::Send, Exchange::Wake(partner))),
        progress::RECEIVE_LOOK => Some((Side::Receive, Exchange::Look)),
        progress::RECEIVE_PARK => Some((Side::Receive, Exchange::Park)),
        progress::RECEIVE_COPY => Some((Side::Receive, Exchange::Copy(partner))),
        progress::RECEIVE_CLEAR => Some((Side::Receive, Exchange::Clear(partner))),
        progress::RECEIVE_WAKE => Some((Side::Receive, Exchange::Wake(partner))),
        _ => None,
    }
}

/// The stage of a choice by its number.
fn read_choice(number: u32, index: u32, first: u32) -> Option<Choice> {
    let first = (first != 0).then_some(first);
    match number {
        progress::CHOOSE_LOOK => Some(Choice::Look(index)),
        progress::CHOOSE_RAISE => Some(Choice::Raise(index)),
        progress::CHOOSE_PLACE => Some(Choice::Place(index)),
        progress::CHOOSE_READY_FROM_LOOK => Some(Choice::ReadyFromLook(index)),
        progress::CHOOSE_READY_FROM_PLACE => Some(Choice::ReadyFromPlace(index)),
        progress::CHOOSE_WAIT => Some(Choice::Wait),
        progress::CHOOSE_DISABLE => Some(Choice::Disable { index, first }),
        progress::CHOOSE_LOWER => Some(Choice::Lower { index, first }),
        progress::CHOOSE_FINISH => Some(Choice::Finish { first }),
        _ => None,
    }
}

/// A channel's record.
fn read_channel(words: &[u32]) -> Channel {
    let process = words[channel::WORD] / 2;
    let word = match words[channel::WORD] {
        0 => Word::Nobody,
        odd if odd % 2 == 1 => Word::Choosing(process),
        _ => Word::Plain(process),
    };
    let (writer, reader) = (words[channel::WRITER], words[channel::READER]);
    Channel { writer, reader, word, transfers: words[channel::TRANSFERS] }
}

/// Whether a state is one that a sound table may hold.
pub fn valid(state: &State) -> bool {
    let (cores, processes, channels) = (state.cores.len(), state.processes.len(), state.channels.len());
    sizes_fit(cores as u32, processes as u32, channels as u32)
        && state.cores.iter().all(|core| core_valid(state, core))
        && state.channels.iter().all(|channel| channel_valid(state, channel))
        && (1..).zip(&state.processes).all(|(p, process)| process_valid(state, p, process))
        && places_valid(state)
}

/// Whether this names a process.
fn names_process(state: &State, p: u32) -> bool {
    p >= 1 && p as usize <= state.processes.len()
}

/// A core's numbers are in their ranges, and its batches aren't empty.
fn core_valid(state: &State, core: &Core) -> bool {
    let named = match core.work {
        Work::Free(Task::None) => true,
        Work::Running(p) | Work::Free(Task::Trigger(p)) | Work::Free(Task::Wake(p)) => names_process(state, p),
    };
    named
        && core.dispatch <= 32
        && core.queued().all(|p| names_process(state, p))
        && core.run.iter().all(|batch| !batch.is_empty())
}

/// A channel's ends are processes and differ, and its word names a process or nobody.
fn channel_valid(state: &State, channel: &Channel) -> bool {
    let word = match channel.word {
        Word::Nobody => true,
        Word::Plain(q) | Word::Choosing(q) => names_process(state, q),
    };
    word && channel.writer != channel.reader
        && names_process(state, channel.writer)
        && names_process(state, channel.reader)
}

/// A process's count is in its range, and its progress fits it and its place.
fn process_valid(state: &State, p: u32, process: &Process) -> bool {
    let fits_place = match process.progress {
        Progress::Nothing => matches!(process.place, Place::Running | Place::Ended),
        Progress::Exchange { .. } | Progress::Choice { .. } => process.place != Place::Ended,
        Progress::Due(_) => matches!(process.place, Place::Queued | Place::Asleep),
    };
    fits_place && process.alternation.count <= 9 && progress_valid(state, p, &process.progress)
}

/// A progress has channels whose proper end p is, a partner that is a process, and indices in its list.
fn progress_valid(state: &State, p: u32, progress: &Progress) -> bool {
    match progress {
        Progress::Nothing | Progress::Due(Outcome::Go) => true,
        Progress::Exchange { side, channel, at } => {
            let partner = match at {
                Exchange::Look | Exchange::Park => true,
                Exchange::Copy(q) | Exchange::Clear(q) | Exchange::Wake(q) => names_process(state, *q),
            };
            partner && is_end(state, p, *side, *channel)
        }
        Progress::Choice { guards, at } => {
            (1..=8).contains(&guards.len())
                && guards.iter().all(|guard| is_end(state, p, Side::Receive, *guard))
                && guards.iter().enumerate().all(|(place, guard)| !guards[..place].contains(guard))
                && indices_valid(*at, guards.len() as u32)
        }
        Progress::Due(Outcome::Sent(channel)) => is_end(state, p, Side::Send, *channel),
        Progress::Due(Outcome::Got(channel) | Outcome::Chose(channel)) => is_end(state, p, Side::Receive, *channel),
    }
}

/// Whether p is this end of a channel that exists.
fn is_end(state: &State, p: u32, side: Side, channel: u32) -> bool {
    let Some(record) = (channel as usize).checked_sub(1).and_then(|place| state.channels.get(place)) else {
        return false;
    };
    match side {
        Side::Send => record.writer == p,
        Side::Receive => record.reader == p,
    }
}

/// Guard index and first ready guard lie in a list of this length.
fn indices_valid(at: Choice, length: u32) -> bool {
    let inside = |index: u32| (1..=length).contains(&index);
    match at {
        Choice::Look(index) | Choice::Raise(index) | Choice::Place(index) => inside(index),
        Choice::ReadyFromLook(index) | Choice::ReadyFromPlace(index) => inside(index),
        Choice::Wait => true,
        Choice::Disable { index, first } | Choice::Lower { index, first } => inside(index) && first.is_none_or(inside),
        Choice::Finish { first } => first.is_none_or(inside),
    }
}

/// Each process is in exactly one place, and its record says which.
fn places_valid(state: &State) -> bool {
    let mut seen = vec![(0, 0); state.processes.len() + 1];
    for (k, core) in state.cores.iter().enumerate() {
        if let Some(p) = state.running(k) {
            seen[p as usize].0 += 1;
        }
        for p in core.queued() {
            seen[p as usize].1 += 1;
        }
    }
    (1..).zip(&state.processes).all(|(p, process): (usize, _)| match process.place {
        Place::Running => seen[p] == (1, 0),
        Place::Queued => seen[p] == (0, 1),
        Place::Asleep | Place::Ended => seen[p] == (0, 0),
    })
}
