//! The soundness check: one pass over the cores and their queues, the processes and the channels, left at the first flaw.

use super::layout::progress::*;
use super::layout::{channel, core, place, process, task, Channel, Core, Process};
use super::records::Records;

/// Where the walk over the cores met a process.
#[derive(Clone, Copy, PartialEq, Eq)]
enum Met {
    Nowhere,
    Running,
    Queued,
    Head,
}

/// What was met, for each process from 1 to 256.
type Meetings = [Met; 257];

/// Whether a table is sound.
pub fn sound(table: &[u32]) -> bool {
    let Some(records) = Records::of(table) else {
        return false;
    };
    let mut met = [Met::Nowhere; 257];
    records.cores.iter().all(|core| records.core_fits(core, &mut met))
        && (1..).zip(records.processes).zip(&met[1..]).all(|((p, process), met)| records.process_fits(p, process, *met))
        && records.channels.iter().all(|channel| records.channel_fits(channel))
}

/// Whether these words are all 0.
fn zeros(words: &[u32]) -> bool {
    words.iter().all(|word| *word == 0)
}

impl Records<'_> {
    /// Whether this names a process.
    fn names_process(&self, p: u32) -> bool {
        p >= 1 && p as usize <= self.processes.len()
    }

    /// Meets a process, unless there is no such process or it was met before.
    fn meet(&self, met: &mut Meetings, p: u32, how: Met) -> bool {
        let fresh = self.names_process(p) && met[p as usize] == Met::Nowhere;
        if fresh {
            met[p as usize] = how;
        }
        fresh
    }

    /// A core's own words and its queues.
    fn core_fits(&self, core: &Core, met: &mut Meetings) -> bool {
        let (running, of) = (core[core::RUNNING], core[core::TASK_OF]);
        let work = match core[core::TASK] {
            task::NONE => of == 0 && (running == 0 || self.meet(met, running, Met::Running)),
            task::TRIGGER | task::WAKE => running == 0 && self.names_process(of),
            _ => false,
        };
        work && core[core::DISPATCH] <= 32
            && core[core::MARK] <= 1
            && zeros(&core[core::UNUSED..])
            && self.queues_fit(core, met)
    }

    /// The active queue and the batches of the run queue, with what is kept of each.
    fn queues_fit(&self, core: &Core, met: &mut Meetings) -> bool {
        if self.walk(core[core::FIRST], met) != Some((core[core::LAST], core[core::SIZE])) {
            return false;
        }
        let mut last_head = 0;
        let mut head = core[core::FIRST_BATCH];
        while head != 0 {
            let walked = self.walk(head, met);
            if walked.is_none() {
                return false;
            }
            let record = &self.processes[head as usize - 1];
            if walked != Some((record[process::BATCH_LAST], record[process::BATCH_SIZE])) {
                return false;
            }
            met[head as usize] = Met::Head;
            last_head = head;
            head = record[process::NEXT_BATCH];
        }
        last_head == core[core::LAST_BATCH]
    }

    /// The last process and the size of a chain; nothing where it meets somebody a second time or leads nowhere.
    fn walk(&self, first: u32, met: &mut Meetings) -> Option<(u32, u32)> {
        let (mut last, mut size, mut next) = (0, 0, first);
        while next != 0 {
            if !self.meet(met, next, Met::Queued) {
                return None;
            }
            last = next;
            size += 1;
            next = self.processes[next as usize - 1][process::NEXT];
        }
        Some((last, size))
    }

    /// A process's flags and count, its place against what was met, and its progress.
    fn process_fits(&self, p: u32, record: &Process, met: Met) -> bool {
        let progress = record[process::PROGRESS];
        let links = &record[process::NEXT..process::UNUSED];
        let place_fits = match (record[process::PLACE], met) {
            (place::RUNNING, Met::Running) => progress < DUE_GO && zeros(links),
            (place::QUEUED, Met::Queued) => progress != NOTHING && zeros(&record[process::BATCH_LAST..process::UNUSED]),
            (place::QUEUED, Met::Head) => progress != NOTHING,
            (place::ASLEEP, Met::Nowhere) => progress != NOTHING && zeros(links),
            (place::ENDED, Met::Nowhere) => progress == NOTHING && zeros(links),
            _ => false,
        };
        place_fits
            && record[process::ENABLING] <= 1
            && record[process::NOT_READY] <= 1
            && record[process::WAITING] <= 1
            && record[process::COUNT] <= 9
            && zeros(&record[process::UNUSED..])
            && self.progress_fits(p, record)
    }

    /// The words of a process's progress: those that mean something, and zeros.
    fn progress_fits(&self, p: u32, record: &Process) -> bool {
        let unused = |first: usize| zeros(&record[first..process::NEXT]);
        let is_end = |end: usize| self.is_end(p, end, record[process::CHANNEL]);
        let has_partner = || self.names_process(record[process::PARTNER]);
        match record[process::PROGRESS] {
            NOTHING | DUE_GO => unused(process::CHANNEL),
            SEND_LOOK | SEND_PARK | DUE_SENT => is_end(channel::WRITER) && unused(process::PARTNER),
            RECEIVE_LOOK | RECEIVE_PARK | DUE_GOT | DUE_CHOSE => is_end(channel::READER) && unused(process::PARTNER),
            SEND_COPY..=SEND_WAKE => is_end(channel::WRITER) && has_partner() && unused(process::GUARD_COUNT),
            RECEIVE_COPY..=RECEIVE_WAKE => is_end(channel::READER) && has_partner() && unused(process::GUARD_COUNT),
            LOOK..=FINISH => zeros(&record[process::CHANNEL..process::GUARD_COUNT]) && self.choice_fits(p, record),
            _ => false,
        }
    }

    /// Whether p is this end of a channel that exists.
    fn is_end(&self, p: u32, end: usize, channel: u32) -> bool {
        self.channels.get((channel as usize).wrapping_sub(1)).is_some_and(|record| record[end] == p)
    }

    /// The guards, the guard index and the first ready guard of a choice.
    fn choice_fits(&self, p: u32, record: &Process) -> bool {
        let (number, count) = (record[process::PROGRESS], record[process::GUARD_COUNT]);
        let (index, ready) = (record[process::INDEX], record[process::READY]);
        if !(1..=8).contains(&count) {
            return false;
        }
        let (guards, unused) = record[process::GUARDS..process::NEXT].split_at(count as usize);
        let index_fits = if matches!(number, WAIT | FINISH) { index == 0 } else { (1..=count).contains(&index) };
        let ready_fits = if number >= DISABLE { ready <= count } else { ready == 0 };
        index_fits
            && ready_fits
            && zeros(unused)
            && guards.iter().all(|guard| self.is_end(p, channel::READER, *guard))
            && guards.iter().enumerate().all(|(place, guard)| !guards[..place].contains(guard))
    }

    /// A channel's ends are processes and differ, and its word names a process or nobody.
    fn channel_fits(&self, record: &Channel) -> bool {
        let (writer, reader, word) = (record[channel::WRITER], record[channel::READER], record[channel::WORD]);
        writer != reader
            && self.names_process(writer)
            && self.names_process(reader)
            && (word == 0 || self.names_process(word >> 1))
    }
}
