//! A lent table as records, each an array of words.

use super::layout::{header, Channel, Core, Header, Process};

/// Whether K, N and M are within their limits.
pub fn sizes_fit(cores: u32, processes: u32, channels: u32) -> bool {
    (1..=8).contains(&cores) && (1..=256).contains(&processes) && channels <= 256
}

/// How many words so many records of a kind have.
fn words<Record>(count: u32) -> usize {
    size_of::<Record>() / size_of::<u32>() * count as usize
}

/// The length of a table with these sizes, which are within their limits.
pub fn room(cores: u32, processes: u32, channels: u32) -> usize {
    words::<Header>(1) + words::<Core>(cores) + words::<Process>(processes) + words::<Channel>(channels)
}

/// The records of a table, to read.
pub struct Records<'a> {
    pub cores: &'a [Core],
    pub processes: &'a [Process],
    pub channels: &'a [Channel],
}

impl<'a> Records<'a> {
    /// The records of a table whose header fits its length; nothing where it doesn't.
    pub fn of(table: &'a [u32]) -> Option<Records<'a>> {
        let header: &Header = table.first_chunk()?;
        let (cores, processes, channels) = (header[header::CORES], header[header::PROCESSES], header[header::CHANNELS]);
        let fits = sizes_fit(cores, processes, channels) && table.len() == room(cores, processes, channels);
        if !fits || header[header::UNUSED..].iter().any(|word| *word != 0) {
            return None;
        }
        let (cores, rest) = table[header.len()..].split_at(words::<Core>(cores));
        let (processes, channels) = rest.split_at(words::<Process>(processes));
        Some(Records {
            cores: cores.as_chunks().0,
            processes: processes.as_chunks().0,
            channels: channels.as_chunks().0,
        })
    }
}

/// The records of a sound table, to change.
pub struct Card<'a> {
    pub cores: &'a mut [Core],
    processes: &'a mut [Process],
    channels: &'a mut [Channel],
}

impl<'a> Card<'a> {
    /// The records of a sound table.
    pub fn of(table: &'a mut [u32]) -> Card<'a> {
        let (header, rest) = table.split_at_mut(room(0, 0, 0));
        let (cores, rest) = rest.split_at_mut(words::<Core>(header[header::CORES]));
        let (processes, channels) = rest.split_at_mut(words::<Process>(header[header::PROCESSES]));
        Card {
            cores: cores.as_chunks_mut().0,
            processes: processes.as_chunks_mut().0,
            channels: channels.as_chunks_mut().0,
        }
    }

    /// How many channels there are.
    pub fn channel_count(&self) -> u32 {
        self.channels.len() as u32
    }

    /// Process p, counted from 1.
    pub fn process(&mut self, p: u32) -> &mut Process {
        &mut self.processes[p as usize - 1]
    }

    /// Channel c, counted from 1.
    pub fn channel(&mut self, c: u32) -> &mut Channel {
        &mut self.channels[c as usize - 1]
    }
}
