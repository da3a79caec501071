//! The rules: set-up, the requests and the steps.

use std::collections::VecDeque;

use super::numbers::*;
use super::state::*;

/// The most processes that a batch's dispatch count allows for, and the factor of its size.
const DISPATCH_LIMIT: usize = 32;
const DISPATCH_FACTOR: usize = 4;

/// The highest count of an alternation state.
const COUNT_LIMIT: u32 = 9;

/// What a set-up is given: K, N, M and the list of (writer, reader), one after the other.
#[derive(Clone, Debug, PartialEq, Eq)]
pub struct Wiring {
    pub cores: u32,
    pub processes: u32,
    pub channels: u32,
    pub pairs: Vec<u32>,
}

/// What a core is asked to do: a request of its running process, or a step.
#[derive(Clone, Debug, PartialEq, Eq)]
pub enum Action {
    Send { channel: u32, value: u32 },
    Receive { channel: u32 },
    Choose { guards: Vec<u32> },
    Yield,
    End,
    Step,
}

/// The number returned and the answer words; a refusal has no words.
#[derive(Clone, Copy, Debug, PartialEq, Eq)]
pub struct Reply {
    pub number: Number,
    pub words: [u32; super::ANSWER_WORDS],
}

impl Reply {
    /// An accepted call's reply.
    pub fn new(number: Number, process: u32, channel: u32, value: u32) -> Reply {
        Reply { number, words: [process, channel, value] }
    }

    /// A refusal.
    pub fn refused(number: Number) -> Reply {
        Reply::new(number, 0, 0, 0)
    }

    /// Whether the call was accepted, and so writes.
    pub fn accepted(&self) -> bool {
        self.number < FIRST_REFUSAL
    }

    fn moved() -> Reply {
        Reply::new(MOVED, 0, 0, 0)
    }

    fn slept(process: u32) -> Reply {
        Reply::new(SLEPT, process, 0, 0)
    }
}

/// A reply, or the number of a refusal.
type Answered = Result<Reply, Number>;

/// Set-up into a table of `room` words.
pub fn set_up(wiring: &Wiring, room: usize) -> Result<State, Number> {
    let Wiring { cores, processes, channels, ref pairs } = *wiring;
    if !super::packing::sizes_fit(cores, processes, channels) {
        return Err(SIZE);
    }
    if pairs.len() != 2 * channels as usize {
        return Err(PAIRS);
    }
    if room != super::table_length(cores, processes, channels) {
        return Err(ROOM);
    }
    for pair in pairs.chunks(2) {
        if pair.iter().any(|name| !(1..=processes).contains(name)) {
            return Err(NAME);
        }
        if pair[0] == pair[1] {
            return Err(SELF);
        }
    }
    Ok(first_state(wiring))
}

/// The state after set-up: each process alone in a batch, with GO due.
fn first_state(wiring: &Wiring) -> State {
    let mut cores = vec![Core::empty(); wiring.cores as usize];
    for p in 1..=wiring.processes {
        let core = (p - 1) % wiring.cores;
        cores[core as usize].run.push_back(VecDeque::from([p]));
    }
    let process = Process {
        place: Place::Queued,
        data: 0,
        alternation: Alternation::default(),
        progress: Progress::Due(Outcome::Go),
    };
    let channel = |pair: &[u32]| Channel { writer: pair[0], reader: pair[1], word: Word::Nobody, transfers: 0 };
    State {
        cores,
        processes: vec![process; wiring.processes as usize],
        channels: wiring.pairs.chunks(2).map(channel).collect(),
    }
}

impl State {
    /// A request or a step on a core. A refusal leaves the state as it was.
    pub fn act(&mut self, core: u32, action: &Action) -> Reply {
        let core = core as usize;
        if core >= self.cores.len() {
            return Reply::refused(CORE);
        }
        let answered = match action {
            Action::Step => self.step(core),
            request => self.request(core, request),
        };
        answered.unwrap_or_else(Reply::refused)
    }

    /// Whether a request is taken, and whose it is; otherwise the number of the refusal.
    pub fn request_allowed(&self, core: usize, request: &Action) -> Result<u32, Number> {
        let p = self.running(core).ok_or(BUSY)?;
        if self.process(p).progress != Progress::Nothing {
            return Err(BUSY);
        }
        match request {
            Action::Send { channel, .. } => self.end_allowed(p, Side::Send, *channel)?,
            Action::Receive { channel } => self.end_allowed(p, Side::Receive, *channel)?,
            Action::Choose { guards } => self.guards_allowed(p, guards)?,
            Action::Yield | Action::End | Action::Step => {}
        }
        Ok(p)
    }

    /// Whether p is the proper end of this channel.
    fn end_allowed(&self, p: u32, side: Side, channel: u32) -> Result<(), Number> {
        if channel == 0 || channel as usize > self.channels.len() {
            return Err(CHANNEL);
        }
        let end = match side {
            Side::Send => self.channel(channel).writer,
            Side::Receive => self.channel(channel).reader,
        };
        if end == p {
            Ok(())
        } else {
            Err(OTHER_END)
        }
    }

    /// Whether p may choose over these guards.
    fn guards_allowed(&self, p: u32, guards: &[u32]) -> Result<(), Number> {
        if guards.is_empty() || guards.len() > 8 {
            return Err(GUARDS);
        }
        for (earlier, guard) in guards.iter().enumerate() {
            self.end_allowed(p, Side::Receive, *guard)?;
            if guards[..earlier].contains(guard) {
                return Err(TWICE);
            }
        }
        Ok(())
    }

    /// A request of the core's running process.
    fn request(&mut self, core: usize, request: &Action) -> Answered {
        let p = self.request_allowed(core, request)?;
        let look = |side, channel| Progress::Exchange { side, channel, at: Exchange::Look };
        let mut named = 0;
        match request {
            Action::Send { channel, value } => {
                named = *channel;
                self.process_mut(p).data = *value;
                self.process_mut(p).progress = look(Side::Send, *channel);
            }
            Action::Receive { channel } => {
                named = *channel;
                self.process_mut(p).progress = look(Side::Receive, *channel);
            }
            Action::Choose { guards } => {
                let process = self.process_mut(p);
                process.alternation = Alternation { enabling: true, not_ready: true, waiting: false, count: 1 };
                process.progress = Progress::Choice { guards: guards.clone(), at: Choice::Look(1) };
            }
            Action::Yield => {
                self.cores[core].work = Work::Free(Task::None);
                self.cores[core].active.push_back(p);
                self.process_mut(p).place = Place::Queued;
                self.process_mut(p).progress = Progress::Due(Outcome::Go);
            }
            Action::End => {
                self.cores[core].work = Work::Free(Task::None);
                self.process_mut(p).place = Place::Ended;
            }
            Action::Step => {}
        }
        Ok(Reply::new(TAKEN, p, named, 0))
    }

    /// The next atomic step of a core.
    fn step(&mut self, core: usize) -> Answered {
        match self.cores[core].work {
            Work::Running(p) => match self.process(p).progress.clone() {
                Progress::Nothing | Progress::Due(_) => Err(AWAITED),
                Progress::Exchange { side, channel, at } => self.exchange(core, p, side, channel, at),
                Progress::Choice { guards, at } => self.choice(core, p, &guards, at),
            },
            Work::Free(Task::Trigger(q)) => self.trigger(core, q),
            Work::Free(Task::Wake(q)) => {
                self.wake(core, q)?;
                self.cores[core].work = Work::Free(Task::None);
                Ok(Reply::moved())
            }
            Work::Free(Task::None) => Ok(self.schedule(core)),
        }
    }

    /// A step of send or receive.
    fn exchange(&mut self, core: usize, p: u32, side: Side, channel: u32, at: Exchange) -> Answered {
        let next = match at {
            Exchange::Look => match self.channel(channel).word {
                Word::Plain(q) => Exchange::Copy(q),
                Word::Nobody | Word::Choosing(_) => Exchange::Park,
            },
            Exchange::Park => match self.park(p, channel) {
                Word::Plain(q) => Exchange::Copy(q),
                Word::Nobody => return Ok(self.sleep(core, p, due(side, channel), Task::None)),
                Word::Choosing(q) => return Ok(self.sleep(core, p, due(side, channel), Task::Trigger(q))),
            },
            Exchange::Copy(q) => {
                self.copy(p, q, side, channel);
                Exchange::Clear(q)
            }
            Exchange::Clear(q) => {
                self.channel_mut(channel).word = Word::Nobody;
                Exchange::Wake(q)
            }
            Exchange::Wake(q) => {
                self.wake(core, q)?;
                return Ok(self.report(p, outcome(side, channel)));
            }
        };
        self.process_mut(p).progress = Progress::Exchange { side, channel, at: next };
        Ok(Reply::moved())
    }

    /// Swaps one's plain name into the channel word and gives the old word.
    fn park(&mut self, p: u32, channel: u32) -> Word {
        std::mem::replace(&mut self.channel_mut(channel).word, Word::Plain(p))
    }

    /// Copies the value from sender to receiver and counts the transfer.
    fn copy(&mut self, p: u32, partner: u32, side: Side, channel: u32) {
        match side {
            Side::Send => self.process_mut(partner).data = self.process(p).data,
            Side::Receive => self.process_mut(p).data = self.process(partner).data,
        }
        let transfers = self.channel(channel).transfers;
        self.channel_mut(channel).transfers = transfers.wrapping_add(1);
    }

    /// Puts a sleeping process at the end of this core's active queue.
    fn wake(&mut self, core: usize, q: u32) -> Result<(), Number> {
        if self.process(q).place != Place::Asleep {
            return Err(FAULT);
        }
        self.process_mut(q).place = Place::Queued;
        self.cores[core].active.push_back(q);
        Ok(())
    }

    /// The running process falls asleep with this progress, and the core has this task.
    fn sleep(&mut self, core: usize, p: u32, progress: Progress, task: Task) -> Reply {
        self.process_mut(p).place = Place::Asleep;
        self.process_mut(p).progress = progress;
        self.cores[core].work = Work::Free(task);
        Reply::slept(p)
    }

    /// Reports an outcome of the running process, which then has nothing in hand.
    fn report(&mut self, p: u32, outcome: Outcome) -> Reply {
        self.process_mut(p).progress = Progress::Nothing;
        match outcome {
            Outcome::Go => Reply::new(GO, p, 0, 0),
            Outcome::Sent(channel) => Reply::new(SENT, p, channel, 0),
            Outcome::Got(channel) => Reply::new(GOT, p, channel, self.process(p).data),
            Outcome::Chose(channel) => Reply::new(CHOSE, p, channel, 0),
        }
    }

    /// A step of choosing.
    fn choice(&mut self, core: usize, p: u32, guards: &[u32], at: Choice) -> Answered {
        let next = match at {
            Choice::Look(index) => match self.channel(guard(guards, index)).word {
                Word::Nobody => Choice::Raise(index),
                _ => Choice::ReadyFromLook(index),
            },
            Choice::Raise(index) => {
                self.raise(p)?;
                Choice::Place(index)
            }
            Choice::Place(index) => self.place(p, guards, index),
            Choice::ReadyFromLook(index) => {
                self.process_mut(p).alternation.not_ready = false;
                after_enabling(guards, index)
            }
            Choice::ReadyFromPlace(index) => {
                self.lower(p)?;
                self.process_mut(p).alternation.not_ready = false;
                after_enabling(guards, index)
            }
            Choice::Wait => return Ok(self.wait(core, p, guards)),
            Choice::Disable { index, first } => self.disable(p, guards, index, first),
            Choice::Lower { index, first } => {
                self.lower(p)?;
                after_disabling(guards, index, first)
            }
            Choice::Finish { first } => return self.finish(core, p, guards, first),
        };
        self.process_mut(p).progress = Progress::Choice { guards: guards.to_vec(), at: next };
        Ok(Reply::moved())
    }

    /// Raises the count of p.
    fn raise(&mut self, p: u32) -> Result<(), Number> {
        let count = &mut self.process_mut(p).alternation.count;
        if *count >= COUNT_LIMIT {
            return Err(FAULT);
        }
        *count += 1;
        Ok(())
    }

    /// Lowers the count of p and gives the new count.
    fn lower(&mut self, p: u32) -> Result<u32, Number> {
        let count = &mut self.process_mut(p).alternation.count;
        if *count == 0 {
            return Err(FAULT);
        }
        *count -= 1;
        Ok(*count)
    }

    /// Puts one's name with the low bit into a word that is still 0.
    fn place(&mut self, p: u32, guards: &[u32], index: u32) -> Choice {
        let word = &mut self.channel_mut(guard(guards, index)).word;
        if *word != Word::Nobody {
            return Choice::ReadyFromPlace(index);
        }
        *word = Word::Choosing(p);
        after_enabling(guards, index)
    }

    /// Sleeps where no guard is ready yet; otherwise goes on to disabling.
    fn wait(&mut self, core: usize, p: u32, guards: &[u32]) -> Reply {
        let at = Choice::Disable { index: 1, first: None };
        let progress = Progress::Choice { guards: guards.to_vec(), at };
        let alternation = &mut self.process_mut(p).alternation;
        alternation.enabling = false;
        if alternation.not_ready {
            alternation.not_ready = false;
            alternation.waiting = true;
            return self.sleep(core, p, progress, Task::None);
        }
        self.process_mut(p).progress = progress;
        Reply::moved()
    }

    /// Takes one's name out of a word, or keeps the first ready guard.
    fn disable(&mut self, p: u32, guards: &[u32], index: u32, first: Option<u32>) -> Choice {
        let word = &mut self.channel_mut(guard(guards, index)).word;
        match *word {
            Word::Choosing(q) if q == p => {
                *word = Word::Nobody;
                Choice::Lower { index, first }
            }
            Word::Plain(_) => after_disabling(guards, index, first.or(Some(index))),
            Word::Nobody | Word::Choosing(_) => after_disabling(guards, index, first),
        }
    }

    /// Ends a choice: at count 0 it is reported, above it is due.
    fn finish(&mut self, core: usize, p: u32, guards: &[u32], first: Option<u32>) -> Answered {
        let chosen = guard(guards, first.ok_or(FAULT)?);
        let outcome = Outcome::Chose(chosen);
        if self.lower(p)? == 0 {
            return Ok(self.report(p, outcome));
        }
        Ok(self.sleep(core, p, Progress::Due(outcome), Task::None))
    }

    /// The kernel task trigger q.
    fn trigger(&mut self, core: usize, q: u32) -> Answered {
        let count = self.lower(q)?;
        let alternation = &mut self.process_mut(q).alternation;
        let wakes = alternation.waiting || count == 0;
        alternation.not_ready = false;
        alternation.waiting = false;
        self.cores[core].work = Work::Free(if wakes { Task::Wake(q) } else { Task::None });
        Ok(Reply::moved())
    }

    /// The step of a core with nothing running and no task.
    fn schedule(&mut self, core: usize) -> Reply {
        let record = &mut self.cores[core];
        if let Some(&head) = record.active.front() {
            if record.dispatch > 0 {
                return self.take(core, head);
            }
            store(record);
            return Reply::moved();
        }
        match record.run.pop_front() {
            Some(batch) => {
                record.dispatch = DISPATCH_LIMIT.min(DISPATCH_FACTOR * batch.len()) as u32;
                record.mark = batch.len() == 1;
                record.active = batch;
                Reply::moved()
            }
            None => Reply::new(IDLE, 0, 0, 0),
        }
    }

    /// Takes the head of the active queue.
    fn take(&mut self, core: usize, head: u32) -> Reply {
        let record = &mut self.cores[core];
        record.active.pop_front();
        record.dispatch -= 1;
        record.work = Work::Running(head);
        self.process_mut(head).place = Place::Running;
        match self.process(head).progress {
            Progress::Due(outcome) => self.report(head, outcome),
            _ => Reply::moved(),
        }
    }
}

/// Stores the active queue into the run queue, as one batch or split.
fn store(record: &mut Core) {
    let mut queue = std::mem::take(&mut record.active);
    if !record.mark && queue.len() > 1 {
        let head = queue.pop_front();
        record.run.push_back(head.into_iter().collect());
    }
    record.run.push_back(queue);
}

/// The guard at an index from 1.
fn guard(guards: &[u32], index: u32) -> u32 {
    guards[index as usize - 1]
}

/// The stage after guard `index` is enabled: the next guard, or wait.
fn after_enabling(guards: &[u32], index: u32) -> Choice {
    if (index as usize) < guards.len() {
        Choice::Look(index + 1)
    } else {
        Choice::Wait
    }
}

/// The stage after guard `index` is disabled: the next guard, or finish.
fn after_disabling(guards: &[u32], index: u32, first: Option<u32>) -> Choice {
    if (index as usize) < guards.len() {
        Choice::Disable { index: index + 1, first }
    } else {
        Choice::Finish { first }
    }
}

/// The outcome of a send or receive.
fn outcome(side: Side, channel: u32) -> Outcome {
    match side {
        Side::Send => Outcome::Sent(channel),
        Side::Receive => Outcome::Got(channel),
    }
}

/// The progress of one who sleeps in a send or receive.
fn due(side: Side, channel: u32) -> Progress {
    Progress::Due(outcome(side, channel))
}
