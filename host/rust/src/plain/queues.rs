//! A core's next step, and its queues.

use super::exchange::Side;
use super::layout::{core, place, process, progress, task};
use super::records::Card;
use super::Reply;
use crate::model::number::*;

impl Card<'_> {
    /// The next atomic step of a core.
    pub fn step(&mut self, core: usize) -> Reply {
        let record = &self.cores[core];
        let (running, task, of) = (record[core::RUNNING], record[core::TASK], record[core::TASK_OF]);
        if running != 0 {
            return self.stage_of(core, running);
        }
        match task {
            task::NONE => self.schedule(core),
            task::TRIGGER => self.trigger(core, of),
            _ if self.wake(core, of) => {
                self.next_task(core, task::NONE, 0);
                Reply::moved()
            }
            _ => Reply::refused(FAULT),
        }
    }

    /// The core has this task, of this process, next.
    pub fn next_task(&mut self, core: usize, task: u32, of: u32) {
        self.cores[core][core::TASK] = task;
        self.cores[core][core::TASK_OF] = of;
    }

    /// The step of the running process.
    fn stage_of(&mut self, core: usize, p: u32) -> Reply {
        match self.process(p)[process::PROGRESS] {
            stage @ progress::SEND_LOOK..=progress::SEND_WAKE => self.exchange(core, p, Side::Send, stage),
            stage @ progress::RECEIVE_LOOK..=progress::RECEIVE_WAKE => {
                self.exchange(core, p, Side::Receive, stage - Side::Receive.offset())
            }
            stage @ progress::LOOK..=progress::FINISH => self.choice(core, p, stage),
            _ => Reply::refused(AWAITED),
        }
    }

    /// The step of a core with nothing running and no task.
    fn schedule(&mut self, core: usize) -> Reply {
        let record = &self.cores[core];
        let (first, first_batch) = (record[core::FIRST], record[core::FIRST_BATCH]);
        if first != 0 && record[core::DISPATCH] > 0 {
            self.take(core, first)
        } else if first != 0 {
            self.store(core, first)
        } else if first_batch != 0 {
            self.load(core, first_batch)
        } else {
            Reply::new(IDLE, 0, 0, 0)
        }
    }

    /// A process goes to the end of the active queue.
    pub fn join(&mut self, core: usize, q: u32) {
        self.process(q)[process::PLACE] = place::QUEUED;
        let record = &mut self.cores[core];
        let last = std::mem::replace(&mut record[core::LAST], q);
        record[core::SIZE] += 1;
        if last == 0 {
            record[core::FIRST] = q;
        } else {
            self.process(last)[process::NEXT] = q;
        }
    }

    /// Takes the first of the active queue.
    fn take(&mut self, core: usize, first: u32) -> Reply {
        let process = self.process(first);
        process[process::PLACE] = place::RUNNING;
        let next = std::mem::take(&mut process[process::NEXT]);
        let (due, channel) = (process[process::PROGRESS], process[process::CHANNEL]);
        let record = &mut self.cores[core];
        record[core::RUNNING] = first;
        record[core::FIRST] = next;
        if next == 0 {
            record[core::LAST] = 0;
        }
        record[core::SIZE] -= 1;
        record[core::DISPATCH] -= 1;
        if due < progress::DUE_GO {
            return Reply::moved();
        }
        self.report(first, due, channel)
    }

    /// Stores the active queue as one batch, or as its first alone and the others.
    fn store(&mut self, core: usize, first: u32) -> Reply {
        let record = &mut self.cores[core];
        let (last, size) = (record[core::LAST], record[core::SIZE]);
        let whole = record[core::MARK] == 1 || size == 1;
        record[core::FIRST..=core::SIZE].fill(0);
        if whole {
            self.add_batch(core, first, last, size);
        } else {
            let second = std::mem::take(&mut self.process(first)[process::NEXT]);
            self.add_batch(core, first, first, 1);
            self.add_batch(core, second, last, size - 1);
        }
        Reply::moved()
    }

    /// Puts a batch at the end of the run queue.
    fn add_batch(&mut self, core: usize, head: u32, last: u32, size: u32) {
        let process = self.process(head);
        process[process::BATCH_LAST] = last;
        process[process::BATCH_SIZE] = size;
        let record = &mut self.cores[core];
        let before = std::mem::replace(&mut record[core::LAST_BATCH], head);
        if before == 0 {
            record[core::FIRST_BATCH] = head;
        } else {
            self.process(before)[process::NEXT_BATCH] = head;
        }
    }

    /// Loads the first batch.
    fn load(&mut self, core: usize, head: u32) -> Reply {
        let process = self.process(head);
        let (last, size) = (process[process::BATCH_LAST], process[process::BATCH_SIZE]);
        let next = process[process::NEXT_BATCH];
        process[process::BATCH_LAST..process::UNUSED].fill(0);
        let record = &mut self.cores[core];
        record[core::FIRST_BATCH] = next;
        if next == 0 {
            record[core::LAST_BATCH] = 0;
        }
        record[core::FIRST] = head;
        record[core::LAST] = last;
        record[core::SIZE] = size;
        record[core::DISPATCH] = (4 * size).min(32);
        record[core::MARK] = u32::from(size == 1);
        Reply::moved()
    }
}
