//! Random wirings, random sound states, and random calls that mostly mean something.

use std::collections::VecDeque;

use crate::model::*;
use crate::random::Random;

/// How large a wiring is to be.
#[derive(Clone, Copy, Debug, PartialEq, Eq)]
pub enum Size {
    Tiny,
    Middle,
    Large,
}

impl Size {
    /// A size, mostly a small one.
    pub fn any(random: &mut Random) -> Size {
        match random.below(100) {
            0..=74 => Size::Tiny,
            75..=95 => Size::Middle,
            _ => Size::Large,
        }
    }

    /// The most cores, processes and channels.
    fn most(self) -> (u32, u32, u32) {
        match self {
            Size::Tiny => (3, 5, 6),
            Size::Middle => (8, 32, 40),
            Size::Large => (8, 256, 256),
        }
    }
}

/// A wiring of this size: any pairs, a ring, a star around one reader, or neighbours in both directions.
pub fn wiring(random: &mut Random, size: Size) -> Wiring {
    let (most_cores, most_processes, most_channels) = size.most();
    let cores = random.between(1, most_cores);
    let processes = if random.chance(10) { most_processes } else { random.between(1, most_processes) };
    let channels = if random.chance(10) { most_channels } else { random.below(most_channels + 1) };
    let mut pairs = Vec::new();
    let kind = random.below(6);
    for c in 0..channels {
        let place = c % processes;
        let (writer, reader) = match kind {
            0 => (place + 1, (place + 1) % processes + 1),
            1 => (c % processes.max(2).saturating_sub(1) + 2, 1),
            2 if c % 2 == 0 => (place + 1, (place + 1) % processes + 1),
            2 => ((place + 1) % processes + 1, place + 1),
            _ => (random.between(1, processes), random.between(1, processes)),
        };
        if writer != reader && writer <= processes {
            pairs.extend([writer, reader]);
        }
    }
    Wiring { cores, processes, channels: pairs.len() as u32 / 2, pairs }
}

/// A random sound state with this wiring; few of them can be reached from set-up.
pub fn state(random: &mut Random, wiring: &Wiring) -> State {
    let room = table_length(wiring.cores, wiring.processes, wiring.channels);
    let mut state = set_up(wiring, room).expect("the wiring is good");
    for core in &mut state.cores {
        *core = Core::empty();
        core.dispatch = random.pick(&[0, 0, 1, 2, 31, 32, random.clone().below(33)]);
        core.mark = random.chance(50);
    }
    spread(random, &mut state);
    entangle(random, &mut state);
    for channel in &mut state.channels {
        channel.word = word(random, channel, wiring.processes);
        channel.transfers = random.pick(&[0, 1, u32::MAX, u32::MAX - 1, random.clone().word()]);
    }
    state
}

/// Gives each process of a state with empty queues a place and what goes with it.
fn spread(random: &mut Random, state: &mut State) {
    let mut order: Vec<u32> = (1..=state.processes.len() as u32).collect();
    random.shuffle(&mut order);
    let crowded = random.chance(25);
    for p in order {
        let core = random.below(state.cores.len() as u32) as usize;
        let core = if crowded && random.chance(70) { 0 } else { core };
        let mut place = if crowded && random.chance(70) { Place::Queued } else { random.pick(&PLACES) };
        if place == Place::Running && state.running(core).is_some() {
            place = random.pick(&[Place::Queued, Place::Asleep]);
        }
        match place {
            Place::Running => state.cores[core].work = Work::Running(p),
            Place::Queued => queue(random, &mut state.cores[core], p, crowded),
            Place::Asleep | Place::Ended => {}
        }
        let progress = progress(random, state, p, place);
        let process = state.process_mut(p);
        process.place = place;
        process.data = random.pick(&[0, 1, 7, u32::MAX, random.clone().word()]);
        process.alternation = alternation(random);
        process.progress = progress;
    }
}

/// Gives free cores tasks, and makes partners and tasks meet: many are running, or first in an active queue.
fn entangle(random: &mut Random, state: &mut State) {
    let first = |core: &Core| match core.work {
        Work::Running(p) => Some(p),
        Work::Free(_) => core.active.front().copied(),
    };
    let mut met: Vec<u32> = state.cores.iter().filter_map(first).collect();
    met.push(random.between(1, state.processes.len() as u32));
    for process in &mut state.processes {
        if let Progress::Exchange { at: Exchange::Copy(partner) | Exchange::Wake(partner), .. } = &mut process.progress
        {
            if random.chance(40) {
                *partner = random.pick(&met);
            }
        }
    }
    for k in 0..state.cores.len() {
        let core = &mut state.cores[k];
        if core.work == Work::Free(Task::None) && random.chance(40) {
            let q = random.pick(&met);
            core.work = Work::Free(random.pick(&[Task::Trigger(q), Task::Wake(q)]));
        } else if let (Some(head), true) = (core.active.front().copied(), random.chance(40)) {
            core.dispatch = core.dispatch.max(1);
            let reads = reads(state, head);
            if !reads.is_empty() {
                state.process_mut(head).progress = Progress::Due(Outcome::Got(random.pick(&reads)));
            }
        }
    }
}

/// Puts a process at the end of the active queue, of the last batch (mostly there in a crowd), or of the run queue.
fn queue(random: &mut Random, core: &mut Core, p: u32, crowded: bool) {
    let kinds = if crowded { 30 } else { 3 };
    match random.below(kinds) {
        0 => core.active.push_back(p),
        1 => core.run.push_back(VecDeque::from([p])),
        _ => match core.run.back_mut() {
            Some(batch) => batch.push_back(p),
            None => core.run.push_back(VecDeque::from([p])),
        },
    }
}

/// A channel word, mostly of one of the channel's ends.
fn word(random: &mut Random, channel: &Channel, processes: u32) -> Word {
    let any = random.between(1, processes);
    let q = random.pick(&[channel.writer, channel.reader, any]);
    random.pick(&[Word::Nobody, Word::Plain(q), Word::Choosing(q)])
}

/// An alternation state, with a count that is often at a limit.
fn alternation(random: &mut Random) -> Alternation {
    Alternation {
        enabling: random.chance(50),
        not_ready: random.chance(50),
        waiting: random.chance(50),
        count: random.pick(&[0, 1, 1, 2, 2, 8, 9, random.clone().below(10)]),
    }
}

/// A progress that fits a process and its place.
fn progress(random: &mut Random, state: &State, p: u32, place: Place) -> Progress {
    let nothing_fits = matches!(place, Place::Running | Place::Ended);
    if place == Place::Ended || (nothing_fits && random.chance(25)) {
        return Progress::Nothing;
    }
    let outcome = !nothing_fits && random.chance(40);
    let partner = random.between(1, state.processes.len() as u32);
    let stages = [Exchange::Look, Exchange::Park, Exchange::Copy(partner), Exchange::Clear(partner)];
    let at = if random.chance(25) { Exchange::Wake(partner) } else { random.pick(&stages) };
    let (writes, reads) = (writes(state, p), reads(state, p));
    match random.below(5) {
        0 | 1 if !writes.is_empty() => {
            let channel = random.pick(&writes);
            let due = Progress::Due(Outcome::Sent(channel));
            if outcome {
                due
            } else {
                Progress::Exchange { side: Side::Send, channel, at }
            }
        }
        2 if !reads.is_empty() => {
            let channel = random.pick(&reads);
            let due = Progress::Due(Outcome::Got(channel));
            if outcome {
                due
            } else {
                Progress::Exchange { side: Side::Receive, channel, at }
            }
        }
        3 | 4 if !reads.is_empty() && outcome => Progress::Due(Outcome::Chose(random.pick(&reads))),
        3 | 4 if !reads.is_empty() => choice(random, reads),
        _ if nothing_fits => Progress::Nothing,
        _ => Progress::Due(Outcome::Go),
    }
}

/// A stage of choosing over some of these channels.
fn choice(random: &mut Random, reads: Vec<u32>) -> Progress {
    let guards = guards(random, reads);
    let length = guards.len() as u32;
    let index = random.between(1, length);
    let first = (!random.chance(40)).then(|| random.between(1, length));
    let at = random.pick(&[
        Choice::Look(index),
        Choice::Raise(index),
        Choice::Place(index),
        Choice::ReadyFromLook(index),
        Choice::ReadyFromPlace(index),
        Choice::Wait,
        Choice::Disable { index, first },
        Choice::Lower { index, first },
        Choice::Finish { first },
    ]);
    Progress::Choice { guards, at }
}

/// One to eight of these channels, in any order.
fn guards(random: &mut Random, mut reads: Vec<u32>) -> Vec<u32> {
    random.shuffle(&mut reads);
    let most = reads.len().min(8) as u32;
    let length = if random.chance(40) { most } else { random.between(1, most) };
    reads.truncate(length as usize);
    reads
}

/// The channels that p writes.
pub fn writes(state: &State, p: u32) -> Vec<u32> {
    (1..).zip(&state.channels).filter(|(_, channel)| channel.writer == p).map(|(c, _)| c).collect()
}

/// The channels that p reads.
pub fn reads(state: &State, p: u32) -> Vec<u32> {
    (1..).zip(&state.channels).filter(|(_, channel)| channel.reader == p).map(|(c, _)| c).collect()
}

/// What to ask of a core: mostly what it can do next.
pub fn action(random: &mut Random, state: &State, core: usize) -> Action {
    let asked = state.running(core).filter(|p| state.process(*p).progress == Progress::Nothing);
    match asked {
        Some(_) if random.chance(8) => bad_request(random, state, core),
        Some(p) if random.chance(98) => request(random, state, p),
        None if random.chance(3) => bad_request(random, state, core),
        _ => Action::Step,
    }
}

/// A request that process p may make; mostly one that somebody waits for.
fn request(random: &mut Random, state: &State, p: u32) -> Action {
    let (writes, reads) = (writes(state, p), reads(state, p));
    let value = random.word();
    if random.chance(70) {
        let parked = |c: &u32| matches!(state.channel(*c).word, Word::Plain(_));
        let waiting = |c: &u32| state.channel(*c).word != Word::Nobody;
        let senders: Vec<u32> = reads.iter().copied().filter(parked).collect();
        let receivers: Vec<u32> = writes.iter().copied().filter(waiting).collect();
        if !receivers.is_empty() && (senders.is_empty() || random.chance(50)) {
            return Action::Send { channel: random.pick(&receivers), value };
        }
        if !senders.is_empty() && random.chance(70) {
            return Action::Receive { channel: random.pick(&senders) };
        }
    }
    let able = !(writes.is_empty() && reads.is_empty());
    match random.below(40) {
        0..=2 => Action::Yield,
        3 => Action::End,
        _ if !able => random.pick(&[Action::Yield, Action::Yield, Action::End]),
        4..=18 if !writes.is_empty() => Action::Send { channel: random.pick(&writes), value },
        _ if reads.is_empty() => Action::Send { channel: random.pick(&writes), value },
        19..=26 => Action::Receive { channel: random.pick(&reads) },
        _ => Action::Choose { guards: guards(random, reads) },
    }
}

/// A request that is likely to be refused.
fn bad_request(random: &mut Random, state: &State, core: usize) -> Action {
    let channels = state.channels.len() as u32;
    let mine = state.running(core).map(|p| reads(state, p)).filter(|reads| !reads.is_empty());
    let any = random.word();
    let channel = random.pick(&[0, 1, channels, channels + 1, any, u32::MAX, 1 + any % channels.max(1)]);
    match random.below(8) {
        0 => Action::Send { channel, value: any },
        1 => Action::Receive { channel },
        2 => Action::Choose { guards: vec![] },
        3 => Action::Choose { guards: (1..=random.pick(&[9, 10, 300])).collect() },
        4 => Action::Choose { guards: vec![channel, channel] },
        5 | 6 => {
            let mut list = mine.map_or(vec![channel], |reads| guards(random, reads));
            list.truncate(6);
            for _ in 0..random.between(1, 2) {
                let wrong = random.pick(&[list[0], list[list.len() / 2], channel]);
                list.insert(random.below(list.len() as u32 + 1) as usize, wrong);
            }
            Action::Choose { guards: list }
        }
        _ => random.pick(&[Action::Yield, Action::End, Action::Step]),
    }
}

/// The wiring of a state.
pub fn wiring_of(state: &State) -> Wiring {
    Wiring {
        cores: state.cores.len() as u32,
        processes: state.processes.len() as u32,
        channels: state.channels.len() as u32,
        pairs: state.channels.iter().flat_map(|channel| [channel.writer, channel.reader]).collect(),
    }
}

/// A wiring that set-up is likely to refuse, for any of its causes.
pub fn spoil(random: &mut Random, wiring: Wiring) -> Wiring {
    let mut bad = wiring;
    let any = random.word();
    let place = random.below(bad.pairs.len().max(1) as u32) as usize;
    match random.below(9) {
        0 => bad.cores = random.pick(&[0, 9, 10, u32::MAX, any]),
        1 => bad.processes = random.pick(&[0, 257, 258, u32::MAX, any]),
        2 => bad.channels = random.pick(&[257, 258, u32::MAX, any, 1 << 31]),
        3 => bad.pairs.push(1),
        4 => bad.pairs.extend([1, 2]),
        5 => drop(bad.pairs.pop()),
        6 if !bad.pairs.is_empty() => bad.pairs[place] = random.pick(&[0, bad.processes + 1, u32::MAX, any]),
        7 if !bad.pairs.is_empty() => bad.pairs[place] = bad.pairs[place ^ 1],
        8 if !bad.pairs.is_empty() => {
            bad.pairs[place] = bad.pairs[place ^ 1];
            let other = random.below(bad.pairs.len() as u32) as usize;
            bad.pairs[other] = random.pick(&[0, bad.processes + 1]);
        }
        _ => {}
    }
    bad
}

/// A sound state of this size: either any, or one from a run that started at set-up.
pub fn sound_state(random: &mut Random, size: Size, most_calls: u32) -> State {
    let wiring = wiring(random, size);
    if random.chance(50) {
        return state(random, &wiring);
    }
    let room = table_length(wiring.cores, wiring.processes, wiring.channels);
    let mut state = set_up(&wiring, room).expect("the wiring is good");
    for _ in 0..random.below(most_calls) {
        let core = random.below(wiring.cores);
        let action = action(random, &state, core as usize);
        state.act(core, &action);
    }
    state
}

/// Breaks one condition of a sound state, or none: what comes of it is for the soundness test to say.
pub fn flaw(random: &mut Random, state: &mut State) {
    let most = state.processes.len() as u32;
    let (p, q) = (random.between(1, most), random.pick(&[1, most, most + 1, random.clone().between(1, most)]));
    let core = random.below(state.cores.len() as u32) as usize;
    match random.below(9) {
        0 => {
            let (other, place) = (random.between(1, most), random.pick(&PLACES));
            state.process_mut(p).progress = progress(random, state, other, place);
        }
        1 => state.process_mut(p).place = random.pick(&PLACES),
        2 => state.cores[core].active.push_back(p),
        3 => drop(state.cores[core].active.pop_front()),
        4 => state.cores[core].work = Work::Running(p),
        5 => state.cores[core].work = random.pick(&[Work::Free(Task::None), Work::Free(Task::Trigger(q))]),
        6 => state.process_mut(p).alternation.count = 10,
        7 => state.cores[core].dispatch = 33,
        _ => flaw_in_progress(random, &mut state.process_mut(p).progress, q),
    }
    if let (true, Some(channel)) = (random.chance(10), state.channels.first_mut()) {
        let Channel { writer, reader, .. } = *channel;
        *channel = random.pick(&[
            Channel { writer: q, ..*channel },
            Channel { reader: writer, ..*channel },
            Channel { writer: reader, reader: writer, ..*channel },
            Channel { word: Word::Plain(q), ..*channel },
            Channel { word: Word::Choosing(q), ..*channel },
        ]);
    }
}

/// Changes a partner, the guards, the guard index or the first ready guard.
fn flaw_in_progress(random: &mut Random, progress: &mut Progress, q: u32) {
    match progress {
        Progress::Exchange { at: Exchange::Copy(partner) | Exchange::Clear(partner), .. } => *partner = q,
        Progress::Choice { guards, at } => {
            let length = guards.len() as u32;
            let beyond = random.pick(&[0, 1, length, length + 1]);
            match at {
                Choice::Look(index) | Choice::Raise(index) | Choice::Place(index) => *index = beyond,
                Choice::Disable { first, .. } | Choice::Lower { first, .. } => *first = Some(beyond),
                Choice::Finish { first } => *first = Some(beyond),
                _ if length < 8 => guards.push(guards[0]),
                _ => guards[7] = guards[0],
            }
        }
        _ => {}
    }
}
