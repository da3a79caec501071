//! The steps of send and receive.

use std::mem::replace;

use super::layout::{channel, core, place, process, progress, task};
use super::records::Card;
use super::Reply;
use crate::model::number::*;

/// Which end of its channel the running process is at.
#[derive(Clone, Copy, PartialEq, Eq)]
pub enum Side {
    Send,
    Receive,
}

impl Side {
    /// What is added to the number of a stage of send.
    pub fn offset(self) -> u32 {
        match self {
            Side::Send => 0,
            Side::Receive => progress::RECEIVE_LOOK - progress::SEND_LOOK,
        }
    }

    /// The outcome that is due.
    fn due(self) -> u32 {
        match self {
            Side::Send => progress::DUE_SENT,
            Side::Receive => progress::DUE_GOT,
        }
    }
}

impl Card<'_> {
    /// The step of a process at this stage, numbered as of send.
    pub fn exchange(&mut self, core: usize, p: u32, side: Side, stage: u32) -> Reply {
        let record = self.process(p);
        let (channel, partner) = (record[process::CHANNEL], record[process::PARTNER]);
        match stage {
            progress::SEND_PARK => self.park(core, p, side, channel),
            progress::SEND_COPY => self.copy(p, side, channel, partner),
            progress::SEND_CLEAR => {
                self.channel(channel)[channel::WORD] = 0;
                self.go_on(p, side, progress::SEND_WAKE)
            }
            progress::SEND_WAKE if self.wake(core, partner) => self.report(p, side.due(), channel),
            progress::SEND_WAKE => Reply::refused(FAULT),
            _ => match plain_name(self.channel(channel)[channel::WORD]) {
                Some(partner) => self.meet(p, side, partner),
                None => self.go_on(p, side, progress::SEND_PARK),
            },
        }
    }

    /// The request goes on at another stage.
    fn go_on(&mut self, p: u32, side: Side, stage: u32) -> Reply {
        self.process(p)[process::PROGRESS] = stage + side.offset();
        Reply::moved()
    }

    /// The partner is there: next copy.
    fn meet(&mut self, p: u32, side: Side, partner: u32) -> Reply {
        self.process(p)[process::PARTNER] = partner;
        self.go_on(p, side, progress::SEND_COPY)
    }

    /// Swaps one's name into the word, and goes by what stood there.
    fn park(&mut self, core: usize, p: u32, side: Side, channel: u32) -> Reply {
        let old = replace(&mut self.channel(channel)[channel::WORD], p << 1);
        if let Some(partner) = plain_name(old) {
            return self.meet(p, side, partner);
        }
        self.process(p)[process::PROGRESS] = side.due();
        let task = if old == 0 { task::NONE } else { task::TRIGGER };
        self.sleep(core, p, task, old >> 1)
    }

    /// Copies the data word from the sender to the receiver and counts the transfer.
    fn copy(&mut self, p: u32, side: Side, channel: u32, partner: u32) -> Reply {
        let (from, to) = if side == Side::Send { (p, partner) } else { (partner, p) };
        self.process(to)[process::DATA] = self.process(from)[process::DATA];
        let transfers = &mut self.channel(channel)[channel::TRANSFERS];
        *transfers = transfers.wrapping_add(1);
        self.go_on(p, side, progress::SEND_CLEAR)
    }

    /// The running process falls asleep, and the core has this task, of this process.
    pub fn sleep(&mut self, core: usize, p: u32, task: u32, of: u32) -> Reply {
        self.process(p)[process::PLACE] = place::ASLEEP;
        self.cores[core][core::RUNNING] = 0;
        self.next_task(core, task, of);
        Reply::new(SLEPT, p, 0, 0)
    }

    /// A process goes to the end of this core's active queue, if it is asleep.
    pub fn wake(&mut self, core: usize, q: u32) -> bool {
        let asleep = self.process(q)[process::PLACE] == place::ASLEEP;
        if asleep {
            self.join(core, q);
        }
        asleep
    }

    /// The running process has come to an outcome, and has nothing in hand.
    pub fn report(&mut self, p: u32, due: u32, channel: u32) -> Reply {
        let record = self.process(p);
        record[process::PROGRESS..process::NEXT].fill(0);
        match due {
            progress::DUE_GO => Reply::new(GO, p, 0, 0),
            progress::DUE_SENT => Reply::new(SENT, p, channel, 0),
            progress::DUE_GOT => Reply::new(GOT, p, channel, record[process::DATA]),
            _ => Reply::new(CHOSE, p, channel, 0),
        }
    }
}

/// The process whose plain name this channel word is.
fn plain_name(word: u32) -> Option<u32> {
    (word != 0 && word & 1 == 0).then_some(word >> 1)
}
