//! Set-up and the requests.

use super::layout::{channel, core, header, place, process, progress};
use super::records::{room, sizes_fit, Card};
use super::Reply;
use crate::model::number::*;
use crate::model::{Number, Wiring};

/// Builds a table.
pub fn set_up(table: &mut [u32], wiring: &Wiring) -> Number {
    let Wiring { cores, processes, channels, ref pairs } = *wiring;
    if !sizes_fit(cores, processes, channels) {
        return SIZE;
    }
    if pairs.len() != 2 * channels as usize {
        return PAIRS;
    }
    if table.len() != room(cores, processes, channels) {
        return ROOM;
    }
    for pair in pairs.chunks_exact(2) {
        if pair.iter().any(|name| !(1..=processes).contains(name)) {
            return NAME;
        }
        if pair[0] == pair[1] {
            return SELF;
        }
    }
    table.fill(0);
    table[header::CORES] = cores;
    table[header::PROCESSES] = processes;
    table[header::CHANNELS] = channels;
    Card::of(table).first_words(cores, processes, pairs);
    BUILT
}

impl Card<'_> {
    /// Each process alone in a batch, with GO due, and the ends of the channels; in records of zeros.
    fn first_words(&mut self, cores: u32, processes: u32, pairs: &[u32]) {
        for p in 1..=processes {
            let follows = if p + cores <= processes { p + cores } else { 0 };
            let record = self.process(p);
            record[process::PLACE] = place::QUEUED;
            record[process::PROGRESS] = progress::DUE_GO;
            record[process::BATCH_LAST] = p;
            record[process::BATCH_SIZE] = 1;
            record[process::NEXT_BATCH] = follows;
            let record = &mut self.cores[(p as usize - 1) % cores as usize];
            if record[core::FIRST_BATCH] == 0 {
                record[core::FIRST_BATCH] = p;
            }
            record[core::LAST_BATCH] = p;
        }
        for (c, pair) in (1..).zip(pairs.chunks_exact(2)) {
            let record = self.channel(c);
            record[channel::WRITER] = pair[0];
            record[channel::READER] = pair[1];
        }
    }

    /// The running process with nothing in hand.
    fn requester(&mut self, core: usize) -> Result<u32, Number> {
        let p = self.cores[core][core::RUNNING];
        if p == 0 || self.process(p)[process::PROGRESS] != progress::NOTHING {
            return Err(BUSY);
        }
        Ok(p)
    }

    /// Whether p is this end of a channel.
    fn end_allowed(&mut self, p: u32, end: usize, channel: u32) -> Result<(), Number> {
        if channel == 0 || channel > self.channel_count() {
            return Err(CHANNEL);
        }
        if self.channel(channel)[end] != p {
            return Err(OTHER_END);
        }
        Ok(())
    }

    /// The running process with nothing in hand, if it is this end of a channel.
    fn requester_at(&mut self, core: usize, end: usize, channel: u32) -> Result<u32, Number> {
        let p = self.requester(core)?;
        self.end_allowed(p, end, channel)?;
        Ok(p)
    }

    /// The running process sends.
    pub fn send(&mut self, core: usize, channel: u32, value: u32) -> Reply {
        match self.requester_at(core, channel::WRITER, channel) {
            Ok(p) => {
                self.process(p)[process::DATA] = value;
                self.begin(p, progress::SEND_LOOK, channel)
            }
            Err(refusal) => Reply::refused(refusal),
        }
    }

    /// The running process receives.
    pub fn receive(&mut self, core: usize, channel: u32) -> Reply {
        match self.requester_at(core, channel::READER, channel) {
            Ok(p) => self.begin(p, progress::RECEIVE_LOOK, channel),
            Err(refusal) => Reply::refused(refusal),
        }
    }

    /// The request starts at the look of this number.
    fn begin(&mut self, p: u32, look: u32, channel: u32) -> Reply {
        let record = self.process(p);
        record[process::PROGRESS] = look;
        record[process::CHANNEL] = channel;
        Reply::new(TAKEN, p, channel, 0)
    }

    /// The running process, if it may choose over these guards.
    fn chooser(&mut self, core: usize, guards: &[u32]) -> Result<u32, Number> {
        let p = self.requester(core)?;
        if guards.is_empty() || guards.len() > 8 {
            return Err(GUARDS);
        }
        for (place, guard) in guards.iter().enumerate() {
            self.end_allowed(p, channel::READER, *guard)?;
            if guards[..place].contains(guard) {
                return Err(TWICE);
            }
        }
        Ok(p)
    }

    /// The running process chooses.
    pub fn choose(&mut self, core: usize, guards: &[u32]) -> Reply {
        let p = match self.chooser(core, guards) {
            Ok(p) => p,
            Err(refusal) => return Reply::refused(refusal),
        };
        let record = self.process(p);
        record[process::ENABLING] = 1;
        record[process::NOT_READY] = 1;
        record[process::WAITING] = 0;
        record[process::COUNT] = 1;
        record[process::PROGRESS] = progress::LOOK;
        record[process::GUARD_COUNT] = guards.len() as u32;
        record[process::INDEX] = 1;
        record[process::GUARDS..][..guards.len()].copy_from_slice(guards);
        Reply::new(TAKEN, p, 0, 0)
    }

    /// The running process yields.
    pub fn give_way(&mut self, core: usize) -> Reply {
        let Ok(p) = self.requester(core) else {
            return Reply::refused(BUSY);
        };
        self.process(p)[process::PROGRESS] = progress::DUE_GO;
        self.join(core, p);
        self.cores[core][core::RUNNING] = 0;
        Reply::new(TAKEN, p, 0, 0)
    }

    /// The running process ends.
    pub fn end(&mut self, core: usize) -> Reply {
        let Ok(p) = self.requester(core) else {
            return Reply::refused(BUSY);
        };
        self.process(p)[process::PLACE] = place::ENDED;
        self.cores[core][core::RUNNING] = 0;
        Reply::new(TAKEN, p, 0, 0)
    }
}
