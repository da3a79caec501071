//! The layout of a table (docs/PACKING.md): how long each record is and where it stands, and what its words and their numbers are called.

/// The words of the header, and how many there are.
pub mod header {
    pub const CORES: usize = 0;
    pub const PROCESSES: usize = 1;
    pub const CHANNELS: usize = 2;
    pub const UNUSED: usize = 3;
    pub const WORDS: usize = 8;
}

/// The words of a core's record, and how many there are.
pub mod core {
    pub const RUNNING: usize = 0;
    pub const TASK: usize = 1;
    pub const TASK_PROCESS: usize = 2;
    pub const ACTIVE_FIRST: usize = 3;
    pub const ACTIVE_LAST: usize = 4;
    pub const ACTIVE_SIZE: usize = 5;
    pub const DISPATCH: usize = 6;
    pub const MARK: usize = 7;
    pub const RUN_FIRST: usize = 8;
    pub const RUN_LAST: usize = 9;
    pub const UNUSED: usize = 10;
    pub const WORDS: usize = 16;
}

/// The words of a process's record, and how many there are.
pub mod process {
    pub const PLACE: usize = 0;
    pub const DATA: usize = 1;
    pub const ENABLING: usize = 2;
    pub const NOT_READY: usize = 3;
    pub const WAITING: usize = 4;
    pub const COUNT: usize = 5;
    pub const PROGRESS: usize = 6;
    pub const CHANNEL: usize = 7;
    pub const PARTNER: usize = 8;
    pub const GUARDS: usize = 9;
    pub const GUARD_INDEX: usize = 10;
    pub const FIRST_READY: usize = 11;
    pub const FIRST_GUARD: usize = 12;
    pub const LAST_GUARD: usize = 19;
    pub const NEXT: usize = 20;
    pub const BATCH_LAST: usize = 21;
    pub const BATCH_SIZE: usize = 22;
    pub const BATCH_AFTER: usize = 23;
    pub const WORDS: usize = 24;
}

/// The words of a channel's record, and how many there are.
pub mod channel {
    pub const WRITER: usize = 0;
    pub const READER: usize = 1;
    pub const WORD: usize = 2;
    pub const TRANSFERS: usize = 3;
    pub const WORDS: usize = 4;
}

/// The numbers of a process's place.
pub mod place {
    pub const RUNNING: u32 = 1;
    pub const QUEUED: u32 = 2;
    pub const ASLEEP: u32 = 3;
    pub const ENDED: u32 = 4;
}

/// The numbers of a core's task.
pub mod task {
    pub const NONE: u32 = 0;
    pub const TRIGGER: u32 = 1;
    pub const WAKE: u32 = 2;
}

/// The numbers of a process's progress.
pub mod progress {
    pub const NOTHING: u32 = 0;
    pub const SEND_LOOK: u32 = 1;
    pub const SEND_PARK: u32 = 2;
    pub const SEND_COPY: u32 = 3;
    pub const SEND_CLEAR: u32 = 4;
    pub const SEND_WAKE: u32 = 5;
    pub const RECEIVE_LOOK: u32 = 6;
    pub const RECEIVE_PARK: u32 = 7;
    pub const RECEIVE_COPY: u32 = 8;
    pub const RECEIVE_CLEAR: u32 = 9;
    pub const RECEIVE_WAKE: u32 = 10;
    pub const CHOOSE_LOOK: u32 = 11;
    pub const CHOOSE_RAISE: u32 = 12;
    pub const CHOOSE_PLACE: u32 = 13;
    pub const CHOOSE_READY_FROM_LOOK: u32 = 14;
    pub const CHOOSE_READY_FROM_PLACE: u32 = 15;
    pub const CHOOSE_WAIT: u32 = 16;
    pub const CHOOSE_DISABLE: u32 = 17;
    pub const CHOOSE_LOWER: u32 = 18;
    pub const CHOOSE_FINISH: u32 = 19;
    pub const DUE_GO: u32 = 20;
    pub const DUE_SENT: u32 = 21;
    pub const DUE_GOT: u32 = 22;
    pub const DUE_CHOSE: u32 = 23;
}

/// The length of the answer slice.
pub const ANSWER_WORDS: usize = 3;

/// Where things stand in a table of K cores and N processes.
#[derive(Clone, Copy)]
pub struct Layout {
    pub cores: usize,
    pub processes: usize,
}

impl Layout {
    /// The first word of core k, counted from 0.
    pub fn core(&self, k: usize) -> usize {
        header::WORDS + core::WORDS * k
    }

    /// The first word of process p, counted from 1.
    pub fn process(&self, p: u32) -> usize {
        self.core(self.cores) + process::WORDS * (p as usize - 1)
    }

    /// The first word of channel c, counted from 1.
    pub fn channel(&self, c: u32) -> usize {
        self.process(self.processes as u32 + 1) + channel::WORDS * (c as usize - 1)
    }

    /// The part of the table that a word belongs to.
    pub fn part(&self, word: usize) -> Part {
        let (cores, processes, channels) = (self.core(0), self.process(1), self.channel(1));
        match word {
            _ if word < cores => Part::Header(word),
            _ if word < processes => Part::Core((word - cores) / core::WORDS, (word - cores) % core::WORDS),
            _ if word < channels => {
                let process = (word - processes) / process::WORDS + 1;
                Part::Process(process as u32, (word - processes) % process::WORDS)
            }
            _ => Part::Channel((word - channels) % channel::WORDS),
        }
    }
}

/// A part of a table, and which word of its record it is.
#[derive(Clone, Copy)]
pub enum Part {
    Header(usize),
    Core(usize, usize),
    Process(u32, usize),
    Channel(usize),
}

/// The length of a table with these sizes, which are within their limits.
pub fn table_length(cores: u32, processes: u32, channels: u32) -> usize {
    Layout { cores: cores as usize, processes: processes as usize }.channel(channels + 1)
}
