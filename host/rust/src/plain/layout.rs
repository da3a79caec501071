//! The layout of a table (docs/PACKING.md): the records as arrays of words, the words by name, and the numbers that stand in them.

pub type Header = [u32; 8];
pub type Core = [u32; 16];
pub type Process = [u32; 24];
pub type Channel = [u32; 4];

/// The length of the answer slice.
pub const ANSWER_WORDS: usize = 3;

/// The words of the header.
pub mod header {
    pub const CORES: usize = 0;
    pub const PROCESSES: usize = 1;
    pub const CHANNELS: usize = 2;
    pub const UNUSED: usize = 3;
}

/// The words of a core's record.
pub mod core {
    pub const RUNNING: usize = 0;
    pub const TASK: usize = 1;
    pub const TASK_OF: usize = 2;
    pub const FIRST: usize = 3;
    pub const LAST: usize = 4;
    pub const SIZE: usize = 5;
    pub const DISPATCH: usize = 6;
    pub const MARK: usize = 7;
    pub const FIRST_BATCH: usize = 8;
    pub const LAST_BATCH: usize = 9;
    pub const UNUSED: usize = 10;
}

/// The words of a process's record.
pub mod process {
    pub const PLACE: usize = 0;
    pub const DATA: usize = 1;
    pub const ENABLING: usize = 2;
    pub const NOT_READY: usize = 3;
    pub const WAITING: usize = 4;
    pub const COUNT: usize = 5;
    pub const PROGRESS: usize = 6;
    pub const CHANNEL: usize = 7;
    pub const PARTNER: usize = 8;
    pub const GUARD_COUNT: usize = 9;
    pub const INDEX: usize = 10;
    pub const READY: usize = 11;
    pub const GUARDS: usize = 12;
    pub const NEXT: usize = 20;
    pub const BATCH_LAST: usize = 21;
    pub const BATCH_SIZE: usize = 22;
    pub const NEXT_BATCH: usize = 23;
    pub const UNUSED: usize = 24;
}

/// The words of a channel's record.
pub mod channel {
    pub const WRITER: usize = 0;
    pub const READER: usize = 1;
    pub const WORD: usize = 2;
    pub const TRANSFERS: usize = 3;
}

/// The numbers of a process's place.
pub mod place {
    pub const RUNNING: u32 = 1;
    pub const QUEUED: u32 = 2;
    pub const ASLEEP: u32 = 3;
    pub const ENDED: u32 = 4;
}

/// The numbers of a core's task.
pub mod task {
    pub const NONE: u32 = 0;
    pub const TRIGGER: u32 = 1;
    pub const WAKE: u32 = 2;
}

/// The numbers of a process's progress. Send and receive have the same stages, in the same order.
pub mod progress {
    pub const NOTHING: u32 = 0;
    pub const SEND_LOOK: u32 = 1;
    pub const SEND_PARK: u32 = 2;
    pub const SEND_COPY: u32 = 3;
    pub const SEND_CLEAR: u32 = 4;
    pub const SEND_WAKE: u32 = 5;
    pub const RECEIVE_LOOK: u32 = 6;
    pub const RECEIVE_PARK: u32 = 7;
    pub const RECEIVE_COPY: u32 = 8;
    pub const RECEIVE_WAKE: u32 = 10;
    pub const LOOK: u32 = 11;
    pub const RAISE: u32 = 12;
    pub const PLACE: u32 = 13;
    pub const READY_FROM_LOOK: u32 = 14;
    pub const READY_FROM_PLACE: u32 = 15;
    pub const WAIT: u32 = 16;
    pub const DISABLE: u32 = 17;
    pub const LOWER: u32 = 18;
    pub const FINISH: u32 = 19;
    pub const DUE_GO: u32 = 20;
    pub const DUE_SENT: u32 = 21;
    pub const DUE_GOT: u32 = 22;
    pub const DUE_CHOSE: u32 = 23;
}
