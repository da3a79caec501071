//! The state: cores, processes and channels, with ordinary queues.

use std::collections::VecDeque;

/// K cores (from 0), N processes (from 1) and M channels (from 1).
#[derive(Clone, Debug, PartialEq, Eq)]
pub struct State {
    pub cores: Vec<Core>,
    pub processes: Vec<Process>,
    pub channels: Vec<Channel>,
}

/// A core.
#[derive(Clone, Debug, PartialEq, Eq)]
pub struct Core {
    pub work: Work,
    pub active: VecDeque<u32>,
    pub dispatch: u32,
    pub mark: bool,
    pub run: VecDeque<VecDeque<u32>>,
}

/// What a core is at: a kernel task stands only where nothing runs.
#[derive(Clone, Copy, Debug, PartialEq, Eq)]
pub enum Work {
    Running(u32),
    Free(Task),
}

/// A core's kernel task.
#[derive(Clone, Copy, Debug, PartialEq, Eq)]
pub enum Task {
    None,
    Trigger(u32),
    Wake(u32),
}

/// A process.
#[derive(Clone, Debug, PartialEq, Eq)]
pub struct Process {
    pub place: Place,
    pub data: u32,
    pub alternation: Alternation,
    pub progress: Progress,
}

/// Where a process is.
#[derive(Clone, Copy, Debug, PartialEq, Eq)]
pub enum Place {
    Running,
    Queued,
    Asleep,
    Ended,
}

/// A process's alternation state.
#[derive(Clone, Copy, Debug, Default, PartialEq, Eq)]
pub struct Alternation {
    pub enabling: bool,
    pub not_ready: bool,
    pub waiting: bool,
    pub count: u32,
}

/// How far a process is with its request.
#[derive(Clone, Debug, PartialEq, Eq)]
pub enum Progress {
    Nothing,
    Exchange { side: Side, channel: u32, at: Exchange },
    Choice { guards: Vec<u32>, at: Choice },
    Due(Outcome),
}

/// Which end of a channel a process is at.
#[derive(Clone, Copy, Debug, PartialEq, Eq)]
pub enum Side {
    Send,
    Receive,
}

/// The stages of send and receive; the later ones with the partner.
#[derive(Clone, Copy, Debug, PartialEq, Eq)]
pub enum Exchange {
    Look,
    Park,
    Copy(u32),
    Clear(u32),
    Wake(u32),
}

/// The stages of choosing; indices count from 1 in the list of guards.
#[derive(Clone, Copy, Debug, PartialEq, Eq)]
pub enum Choice {
    Look(u32),
    Raise(u32),
    Place(u32),
    ReadyFromLook(u32),
    ReadyFromPlace(u32),
    Wait,
    Disable { index: u32, first: Option<u32> },
    Lower { index: u32, first: Option<u32> },
    Finish { first: Option<u32> },
}

/// An outcome to report when the process is next taken; with its channel.
#[derive(Clone, Copy, Debug, PartialEq, Eq)]
pub enum Outcome {
    Go,
    Sent(u32),
    Got(u32),
    Chose(u32),
}

/// A channel.
#[derive(Clone, Copy, Debug, PartialEq, Eq)]
pub struct Channel {
    pub writer: u32,
    pub reader: u32,
    pub word: Word,
    pub transfers: u32,
}

/// What a channel word says.
#[derive(Clone, Copy, Debug, PartialEq, Eq)]
pub enum Word {
    Nobody,
    Plain(u32),
    Choosing(u32),
}

impl State {
    /// Process p, counted from 1.
    pub fn process(&self, p: u32) -> &Process {
        &self.processes[p as usize - 1]
    }

    /// Process p, to change it.
    pub fn process_mut(&mut self, p: u32) -> &mut Process {
        &mut self.processes[p as usize - 1]
    }

    /// Channel c, counted from 1.
    pub fn channel(&self, c: u32) -> &Channel {
        &self.channels[c as usize - 1]
    }

    /// Channel c, to change it.
    pub fn channel_mut(&mut self, c: u32) -> &mut Channel {
        &mut self.channels[c as usize - 1]
    }

    /// The process that runs on this core.
    pub fn running(&self, core: usize) -> Option<u32> {
        match self.cores[core].work {
            Work::Running(p) => Some(p),
            Work::Free(_) => None,
        }
    }
}

impl Core {
    /// A core with nothing on it.
    pub fn empty() -> Core {
        let work = Work::Free(Task::None);
        Core { work, active: VecDeque::new(), dispatch: 0, mark: false, run: VecDeque::new() }
    }

    /// Every process in this core's queues.
    pub fn queued(&self) -> impl Iterator<Item = u32> + '_ {
        self.active.iter().chain(self.run.iter().flatten()).copied()
    }
}
