//! The steps of choosing, and the trigger.

use super::layout::progress::{
    DISABLE, DUE_CHOSE, FINISH, LOOK, LOWER, PLACE, RAISE, READY_FROM_LOOK, READY_FROM_PLACE, WAIT,
};
use super::layout::{channel, process, task};
use super::records::Card;
use super::Reply;
use crate::model::number::FAULT;

/// The highest count of an alternation state.
const COUNT_LIMIT: u32 = 9;

impl Card<'_> {
    /// The step of a process at this stage of choosing.
    pub fn choice(&mut self, core: usize, p: u32, stage: u32) -> Reply {
        match stage {
            LOOK => {
                let free = *self.guarded_word(p) == 0;
                self.stage(p, if free { RAISE } else { READY_FROM_LOOK })
            }
            RAISE if self.raise(p) => self.stage(p, PLACE),
            PLACE => self.place(p),
            READY_FROM_LOOK => self.ready(p),
            READY_FROM_PLACE if self.lower(p) => self.ready(p),
            WAIT => self.wait(core, p),
            DISABLE => self.disable(p),
            LOWER if self.lower(p) => self.next_guard(p, DISABLE, FINISH),
            FINISH => self.finish(core, p),
            _ => Reply::refused(FAULT),
        }
    }

    /// The word of the channel that the guard index names.
    fn guarded_word(&mut self, p: u32) -> &mut u32 {
        let record = self.process(p);
        let guard = record[process::GUARDS + record[process::INDEX] as usize - 1];
        &mut self.channel(guard)[channel::WORD]
    }

    /// The choice goes on at another stage.
    fn stage(&mut self, p: u32, stage: u32) -> Reply {
        self.process(p)[process::PROGRESS] = stage;
        Reply::moved()
    }

    /// Goes on to the next guard at one stage, or after the last to another.
    fn next_guard(&mut self, p: u32, again: u32, after: u32) -> Reply {
        let record = self.process(p);
        let more = record[process::INDEX] < record[process::GUARD_COUNT];
        record[process::INDEX] = if more { record[process::INDEX] + 1 } else { 0 };
        record[process::PROGRESS] = if more { again } else { after };
        Reply::moved()
    }

    /// Raises the count, if it isn't at its limit.
    fn raise(&mut self, p: u32) -> bool {
        let count = &mut self.process(p)[process::COUNT];
        let below = *count < COUNT_LIMIT;
        if below {
            *count += 1;
        }
        below
    }

    /// Lowers the count, if it isn't 0.
    fn lower(&mut self, p: u32) -> bool {
        let count = &mut self.process(p)[process::COUNT];
        let above = *count > 0;
        if above {
            *count -= 1;
        }
        above
    }

    /// Puts one's name with the low bit into a word that is still 0.
    fn place(&mut self, p: u32) -> Reply {
        let word = self.guarded_word(p);
        if *word != 0 {
            return self.stage(p, READY_FROM_PLACE);
        }
        *word = (p << 1) | 1;
        self.next_guard(p, LOOK, WAIT)
    }

    /// The guard is ready.
    fn ready(&mut self, p: u32) -> Reply {
        self.process(p)[process::NOT_READY] = 0;
        self.next_guard(p, LOOK, WAIT)
    }

    /// Sleeps where no guard is ready yet; otherwise goes on to disabling.
    fn wait(&mut self, core: usize, p: u32) -> Reply {
        let record = self.process(p);
        record[process::PROGRESS] = DISABLE;
        record[process::INDEX] = 1;
        record[process::ENABLING] = 0;
        if record[process::NOT_READY] == 0 {
            return Reply::moved();
        }
        record[process::NOT_READY] = 0;
        record[process::WAITING] = 1;
        self.sleep(core, p, task::NONE, 0)
    }

    /// Takes one's name out of a word, or keeps the first ready guard.
    fn disable(&mut self, p: u32) -> Reply {
        let word = self.guarded_word(p);
        if *word == (p << 1) | 1 {
            *word = 0;
            return self.stage(p, LOWER);
        }
        let ready = *word != 0 && *word & 1 == 0;
        let record = self.process(p);
        if ready && record[process::READY] == 0 {
            record[process::READY] = record[process::INDEX];
        }
        self.next_guard(p, DISABLE, FINISH)
    }

    /// Ends a choice: at count 0 it is reported, above it is due.
    fn finish(&mut self, core: usize, p: u32) -> Reply {
        let record = self.process(p);
        let ready = record[process::READY] as usize;
        if ready == 0 || record[process::COUNT] == 0 {
            return Reply::refused(FAULT);
        }
        let chosen = record[process::GUARDS + ready - 1];
        record[process::COUNT] -= 1;
        if record[process::COUNT] == 0 {
            return self.report(p, DUE_CHOSE, chosen);
        }
        record[process::PROGRESS..process::NEXT].fill(0);
        record[process::PROGRESS] = DUE_CHOSE;
        record[process::CHANNEL] = chosen;
        self.sleep(core, p, task::NONE, 0)
    }

    /// The kernel task trigger q.
    pub fn trigger(&mut self, core: usize, q: u32) -> Reply {
        if !self.lower(q) {
            return Reply::refused(FAULT);
        }
        let record = self.process(q);
        let wakes = record[process::WAITING] == 1 || record[process::COUNT] == 0;
        record[process::NOT_READY] = 0;
        record[process::WAITING] = 0;
        let (task, of) = if wakes { (task::WAKE, q) } else { (task::NONE, 0) };
        self.next_task(core, task, of);
        Reply::moved()
    }
}
