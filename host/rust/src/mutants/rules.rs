//! Faulty rules.

use std::collections::VecDeque;

use super::{After, Before, Fault, Mutant};
use crate::model::number::*;
use crate::model::*;

/// Every variant with a faulty rule.
pub fn all() -> Vec<Mutant> {
    [EXCHANGE_FAULTS, CHOICE_FAULTS, TRIGGER_FAULTS, QUEUE_FAULTS, REQUEST_FAULTS].concat()
}

/// A variant with this faulty rule.
const fn rule(name: &'static str, fault: fn(&Before, &mut After)) -> Mutant {
    Mutant { name, fault: Fault::Rule(fault) }
}

impl Before<'_> {
    /// The running process, its side, channel and stage, where the call is a step of send or receive.
    fn exchange(&self) -> Option<(u32, Side, u32, Exchange)> {
        let p = self.state.running(self.core).filter(|_| *self.action == Action::Step)?;
        match self.state.process(p).progress {
            Progress::Exchange { side, channel, at } => Some((p, side, channel, at)),
            _ => None,
        }
    }

    /// The running process, its guards and stage, where the call is a step of choosing.
    fn choice(&self) -> Option<(u32, Vec<u32>, Choice)> {
        let p = self.state.running(self.core).filter(|_| *self.action == Action::Step)?;
        match &self.state.process(p).progress {
            Progress::Choice { guards, at } => Some((p, guards.clone(), *at)),
            _ => None,
        }
    }

    /// The process to trigger, where the call is that step.
    fn trigger(&self) -> Option<u32> {
        match self.state.cores[self.core].work {
            Work::Free(Task::Trigger(q)) if *self.action == Action::Step => Some(q),
            _ => None,
        }
    }

    /// The core's record, where the call is a step with nothing running and no task.
    fn schedule(&self) -> Option<&Core> {
        let core = &self.state.cores[self.core];
        (core.work == Work::Free(Task::None) && *self.action == Action::Step).then_some(core)
    }

    /// The process that a step wakes or tries to wake.
    fn woken(&self) -> Option<u32> {
        match self.exchange() {
            Some((_, _, _, Exchange::Wake(q))) => Some(q),
            _ => match self.state.cores[self.core].work {
                Work::Free(Task::Wake(q)) if *self.action == Action::Step => Some(q),
                _ => None,
            },
        }
    }
}

impl After {
    /// The step is done, and the choice of p goes on at this stage.
    fn go_on(&mut self, p: u32, guards: Vec<u32>, at: Choice) {
        self.reply = Reply::new(MOVED, 0, 0, 0);
        self.state.process_mut(p).progress = Progress::Choice { guards, at };
    }

    /// The first ready guard of p's choice is this one.
    fn keep_guard(&mut self, p: u32, guard: u32) {
        if let Progress::Choice { at: Choice::Disable { first, .. } | Choice::Finish { first }, .. } =
            &mut self.state.process_mut(p).progress
        {
            *first = Some(guard);
        }
    }

    /// The exchange of p is over.
    fn report(&mut self, p: u32, side: Side, channel: u32) {
        let data = self.state.process(p).data;
        self.state.process_mut(p).progress = Progress::Nothing;
        self.reply = match side {
            Side::Send => Reply::new(SENT, p, channel, 0),
            Side::Receive => Reply::new(GOT, p, channel, data),
        };
    }
}

/// Faults in send and receive.
const EXCHANGE_FAULTS: &[Mutant] = &[
    rule("transfers aren't counted", |before, after| {
        if let Some((_, _, channel, Exchange::Copy(_))) = before.exchange() {
            after.state.channel_mut(channel).transfers = before.state.channel(channel).transfers;
        }
    }),
    rule("wake counts a transfer too", |before, after| {
        if let (Some((_, _, channel, Exchange::Wake(_))), true) = (before.exchange(), after.reply.accepted()) {
            let transfers = before.state.channel(channel).transfers.wrapping_add(1);
            after.state.channel_mut(channel).transfers = transfers;
        }
    }),
    rule("transfers stop at the largest number", |before, after| {
        if let Some((_, _, channel, Exchange::Copy(_))) = before.exchange() {
            let transfers = before.state.channel(channel).transfers.saturating_add(1);
            after.state.channel_mut(channel).transfers = transfers;
        }
    }),
    rule("the partner wakes before the copy", wake_before_copy),
    rule("a stale look in park is a fault", |before, after| {
        if let Some((_, _, channel, Exchange::Park)) = before.exchange() {
            if matches!(before.state.channel(channel).word, Word::Plain(_)) {
                after.reply = Reply::refused(FAULT);
                after.state = before.state.clone();
            }
        }
    }),
    rule("a receiver copies to the sender", |before, after| {
        if let Some((p, Side::Receive, _, Exchange::Copy(partner))) = before.exchange() {
            let data = before.state.process(p).data;
            after.state.process_mut(p).data = data;
            after.state.process_mut(partner).data = data;
        }
    }),
    rule("copy wants the partner at the channel's other end", |before, after| {
        if let Some((p, _, c, Exchange::Copy(partner))) = before.exchange() {
            let channel = before.state.channel(c);
            if partner != channel.writer && partner != channel.reader {
                after.state.process_mut(p).data = before.state.process(p).data;
                after.state.process_mut(partner).data = before.state.process(partner).data;
            }
        }
    }),
    rule("look takes one who is choosing for a partner", |before, after| {
        if let Some((p, side, channel, Exchange::Look)) = before.exchange() {
            if let Word::Choosing(q) = before.state.channel(channel).word {
                let at = Exchange::Copy(q);
                after.state.process_mut(p).progress = Progress::Exchange { side, channel, at };
            }
        }
    }),
    rule("clear leaves the word of one who is choosing", |before, after| {
        if let Some((_, _, channel, Exchange::Clear(_))) = before.exchange() {
            if let Word::Choosing(_) = before.state.channel(channel).word {
                after.state.channel_mut(channel).word = before.state.channel(channel).word;
            }
        }
    }),
    rule("park forgets the trigger", |before, after| {
        if let Some((_, _, _, Exchange::Park)) = before.exchange() {
            if let Work::Free(Task::Trigger(_)) = after.state.cores[before.core].work {
                after.state.cores[before.core].work = Work::Free(Task::None);
            }
        }
    }),
    rule("look, copy, clear and wake come in one call", |before, after| {
        if let Some((_, _, _, Exchange::Look | Exchange::Copy(_) | Exchange::Clear(_))) = before.exchange() {
            for _ in 0..3 {
                let reply = after.state.clone().act(before.core as u32, &Action::Step);
                if reply.accepted() && after.reply.number == MOVED {
                    after.reply = after.state.act(before.core as u32, &Action::Step);
                }
            }
        }
    }),
];

/// The partner is put into the queue at copy already, and wake only reports.
fn wake_before_copy(before: &Before, after: &mut After) {
    match before.exchange() {
        Some((_, _, _, Exchange::Copy(q))) if before.state.process(q).place == Place::Asleep => {
            after.state.process_mut(q).place = Place::Queued;
            after.state.cores[before.core].active.push_back(q);
        }
        Some((p, side, channel, Exchange::Wake(_))) => {
            after.state = before.state.clone();
            after.report(p, side, channel);
        }
        _ => {}
    }
}

/// Faults in choosing.
const CHOICE_FAULTS: &[Mutant] = &[
    rule("a choice finishes at the first ready guard", |before, after| {
        if let Some((p, guards, Choice::Disable { index, .. })) = before.choice() {
            let word = before.state.channel(guards[index as usize - 1]).word;
            if matches!(word, Word::Plain(_)) {
                after.go_on(p, guards, Choice::Finish { first: Some(index) });
            }
        }
    }),
    rule("place takes any word", |before, after| {
        if let Some((p, guards, Choice::Place(index))) = before.choice() {
            after.state.channel_mut(guards[index as usize - 1]).word = Word::Choosing(p);
            let last = index as usize == guards.len();
            after.go_on(p, guards, if last { Choice::Wait } else { Choice::Look(index + 1) });
        }
    }),
    rule("ready from place keeps the count", |before, after| {
        if let Some((p, _, Choice::ReadyFromPlace(_))) = before.choice() {
            after.state.process_mut(p).alternation.count = before.state.process(p).alternation.count;
        }
    }),
    rule("ready from look lowers the count", |before, after| {
        if let Some((p, _, Choice::ReadyFromLook(_))) = before.choice() {
            let count = before.state.process(p).alternation.count.saturating_sub(1);
            after.state.process_mut(p).alternation.count = count;
        }
    }),
    rule("disable takes an empty word for ready", |before, after| {
        if let Some((p, guards, Choice::Disable { index, first: None })) = before.choice() {
            if before.state.channel(guards[index as usize - 1]).word == Word::Nobody {
                after.keep_guard(p, index);
            }
        }
    }),
    rule("disable keeps the last ready guard", |before, after| {
        if let Some((p, guards, Choice::Disable { index, .. })) = before.choice() {
            if matches!(before.state.channel(guards[index as usize - 1]).word, Word::Plain(_)) {
                after.keep_guard(p, index);
            }
        }
    }),
    rule("disable takes out any name with the low bit", |before, after| {
        if let Some((p, guards, Choice::Disable { index, first })) = before.choice() {
            let channel = guards[index as usize - 1];
            if matches!(before.state.channel(channel).word, Word::Choosing(_)) {
                after.state.channel_mut(channel).word = Word::Nobody;
                after.go_on(p, guards, Choice::Lower { index, first });
            }
        }
    }),
    rule("a count of nine stays at nine", |before, after| {
        if let (Some((p, guards, Choice::Raise(index))), FAULT) = (before.choice(), after.reply.number) {
            after.go_on(p, guards, Choice::Place(index));
        }
    }),
    rule("a count of eight can't be raised", |before, after| {
        if let Some((p, _, Choice::Raise(_))) = before.choice() {
            if before.state.process(p).alternation.count == 8 {
                after.reply = Reply::refused(FAULT);
                after.state = before.state.clone();
            }
        }
    }),
    rule("a choice with no ready guard finishes with its first", |before, after| {
        if let (Some((p, guards, Choice::Finish { first: None })), FAULT) = (before.choice(), after.reply.number) {
            after.state.process_mut(p).progress = Progress::Nothing;
            after.reply = Reply::new(CHOSE, p, guards[0], 0);
        }
    }),
    rule("finish reports at any count", |before, after| {
        if let (Some((p, _, Choice::Finish { first: Some(_) })), SLEPT) = (before.choice(), after.reply.number) {
            if let Progress::Due(Outcome::Chose(channel)) = after.state.process(p).progress {
                after.state.process_mut(p).place = Place::Running;
                after.state.process_mut(p).progress = Progress::Nothing;
                after.state.cores[before.core].work = Work::Running(p);
                after.reply = Reply::new(CHOSE, p, channel, 0);
            }
        }
    }),
    rule("wait leaves enabling set", |before, after| {
        if let Some((p, _, Choice::Wait)) = before.choice() {
            after.state.process_mut(p).alternation.enabling = before.state.process(p).alternation.enabling;
        }
    }),
    rule("one asleep in wait goes on at wait", |before, after| {
        if let (Some((p, guards, Choice::Wait)), SLEPT) = (before.choice(), after.reply.number) {
            after.state.process_mut(p).progress = Progress::Choice { guards, at: Choice::Wait };
        }
    }),
    rule("enabling stops at the first ready guard", |before, after| {
        if let Some((p, guards, Choice::ReadyFromLook(_))) = before.choice() {
            after.go_on(p, guards, Choice::Wait);
        }
    }),
];

/// Faults in trigger and wake.
const TRIGGER_FAULTS: &[Mutant] = &[
    rule("trigger always wakes", |before, after| {
        if let (Some(q), true) = (before.trigger(), after.reply.accepted()) {
            after.state.cores[before.core].work = Work::Free(Task::Wake(q));
        }
    }),
    rule("trigger looks only at the count", |before, after| {
        if let (Some(q), true) = (before.trigger(), after.reply.accepted()) {
            let wakes = after.state.process(q).alternation.count == 0;
            after.state.cores[before.core].work = Work::Free(if wakes { Task::Wake(q) } else { Task::None });
        }
    }),
    rule("trigger looks only at waiting", |before, after| {
        if let (Some(q), true) = (before.trigger(), after.reply.accepted()) {
            let wakes = before.state.process(q).alternation.waiting;
            after.state.cores[before.core].work = Work::Free(if wakes { Task::Wake(q) } else { Task::None });
        }
    }),
    rule("trigger leaves not-ready", |before, after| {
        if let Some(q) = before.trigger() {
            after.state.process_mut(q).alternation.not_ready = before.state.process(q).alternation.not_ready;
        }
    }),
    rule("trigger leaves waiting", |before, after| {
        if let Some(q) = before.trigger() {
            after.state.process_mut(q).alternation.waiting = before.state.process(q).alternation.waiting;
        }
    }),
    rule("trigger at count 0 goes on", |before, after| {
        if let (Some(q), FAULT) = (before.trigger(), after.reply.number) {
            after.state.cores[before.core].work = Work::Free(Task::Wake(q));
            after.reply = Reply::new(MOVED, 0, 0, 0);
        }
    }),
    rule("trigger wakes in the same step", |before, after| {
        if let Some(q) = before.trigger() {
            let wakes = after.state.cores[before.core].work == Work::Free(Task::Wake(q));
            if wakes && after.state.process(q).place == Place::Asleep {
                after.state.act(before.core as u32, &Action::Step);
            }
        }
    }),
    rule("wake of one who isn't asleep is let pass", |before, after| {
        if let (Some((p, side, channel, Exchange::Wake(_))), FAULT) = (before.exchange(), after.reply.number) {
            after.report(p, side, channel);
        }
    }),
    rule("wake puts it at the front", |before, after| {
        if before.woken().is_some() && after.reply.accepted() {
            after.state.cores[before.core].active.rotate_right(1);
        }
    }),
    rule("wake puts it on the core of its set-up", |before, after| {
        if let (Some(q), true) = (before.woken(), after.reply.accepted()) {
            let home = (q as usize - 1) % after.state.cores.len();
            after.state.cores[before.core].active.pop_back();
            after.state.cores[home].active.push_back(q);
        }
    }),
];

/// Faults in take, store and load.
const QUEUE_FAULTS: &[Mutant] = &[
    rule("one process is split", |before, after| {
        if let Some(core) = before.schedule() {
            if core.active.len() == 1 && core.dispatch == 0 && !core.mark {
                after.state.cores[before.core].run.push_back(VecDeque::new());
            }
        }
    }),
    rule("the mark is ignored", |before, after| {
        if let Some(core) = before.schedule() {
            if core.active.len() > 1 && core.dispatch == 0 && core.mark {
                let run = &mut after.state.cores[before.core].run;
                let head = run.back_mut().and_then(|batch| batch.pop_front());
                run.insert(run.len() - 1, head.into_iter().collect());
            }
        }
    }),
    rule("a split puts the rest before the head", |before, after| {
        if let Some(core) = before.schedule() {
            if core.active.len() > 1 && core.dispatch == 0 && !core.mark {
                let run = &mut after.state.cores[before.core].run;
                let last = run.len() - 1;
                run.swap(last, last - 1);
            }
        }
    }),
    rule("the dispatch count has no limit", |before, after| {
        if let Some(core) = before.schedule().filter(|core| core.active.is_empty()) {
            if let Some(batch) = core.run.front() {
                after.state.cores[before.core].dispatch = 4 * batch.len() as u32;
            }
        }
    }),
    rule("the mark is set for two", |before, after| {
        if let Some(core) = before.schedule().filter(|core| core.active.is_empty()) {
            if core.run.front().is_some_and(|batch| batch.len() == 2) {
                after.state.cores[before.core].mark = true;
            }
        }
    }),
    rule("load leaves the mark set", |before, after| {
        if let Some(core) = before.schedule().filter(|core| core.active.is_empty()) {
            after.state.cores[before.core].mark |= core.mark;
        }
    }),
    rule("load takes the last batch", |before, after| {
        if before.schedule().is_some_and(|core| core.active.is_empty() && core.run.len() > 1) {
            let mut other = before.state.clone();
            other.cores[before.core].run.rotate_right(1);
            other.act(before.core as u32, &Action::Step);
            after.state = other;
        }
    }),
    rule("take keeps the dispatch count", |before, after| {
        if let Some(core) = before.schedule().filter(|core| !core.active.is_empty() && core.dispatch > 0) {
            after.state.cores[before.core].dispatch = core.dispatch;
        }
    }),
    rule("take gives no value with GOT", |before, after| {
        if before.schedule().is_some() && after.reply.number == GOT {
            after.reply.words[2] = 0;
        }
    }),
    rule("take does the first step too", |before, after| {
        let taken = before.schedule().is_some_and(|core| !core.active.is_empty() && core.dispatch > 0);
        if taken && after.reply.number == MOVED {
            let reply = after.state.clone().act(before.core as u32, &Action::Step);
            if reply.accepted() {
                after.reply = after.state.act(before.core as u32, &Action::Step);
            }
        }
    }),
];

/// Faults in the requests.
const REQUEST_FAULTS: &[Mutant] = &[
    rule("yield goes to the front", |before, after| {
        if *before.action == Action::Yield && after.reply.accepted() {
            after.state.cores[before.core].active.rotate_right(1);
        }
    }),
    rule("end clears the data", |before, after| {
        if *before.action == Action::End && after.reply.accepted() {
            after.state.process_mut(after.reply.words[0]).data = 0;
        }
    }),
    rule("choose leaves waiting", |before, after| {
        if matches!(before.action, Action::Choose { .. }) && after.reply.accepted() {
            let p = after.reply.words[0];
            after.state.process_mut(p).alternation.waiting = before.state.process(p).alternation.waiting;
        }
    }),
    rule("choose adds one to the count it finds", |before, after| {
        if matches!(before.action, Action::Choose { .. }) && after.reply.accepted() {
            let p = after.reply.words[0];
            let count = (before.state.process(p).alternation.count + 1).min(9);
            after.state.process_mut(p).alternation.count = count;
        }
    }),
    rule("choose names its first guard", |before, after| {
        if let (Action::Choose { guards }, true) = (before.action, after.reply.accepted()) {
            after.reply.words[1] = guards[0];
        }
    }),
    rule("eight guards are too many", |before, after| {
        if matches!(before.action, Action::Choose { guards } if guards.len() == 8) && after.reply.accepted() {
            after.reply = Reply::refused(GUARDS);
            after.state = before.state.clone();
        }
    }),
    rule("a guard may repeat one that isn't right before it", |before, after| {
        if let (Action::Choose { guards }, TWICE) = (before.action, after.reply.number) {
            if guards.windows(2).all(|pair| pair[0] != pair[1]) {
                after.reply = Reply::new(TAKEN, before.state.running(before.core).unwrap_or(0), 0, 0);
            }
        }
    }),
    rule("all guards are named before any is tried for repeats", |before, after| {
        if let (Action::Choose { guards }, TWICE) = (before.action, after.reply.number) {
            if guards.iter().any(|guard| *guard == 0 || *guard as usize > before.state.channels.len()) {
                after.reply = Reply::refused(CHANNEL);
            }
        }
    }),
    rule("guards are looked at before the running process", |before, after| {
        if let (Action::Choose { guards }, BUSY) = (before.action, after.reply.number) {
            if guards.is_empty() || guards.len() > 8 {
                after.reply = Reply::refused(GUARDS);
            }
        }
    }),
    rule("a request in hand is taken over", |before, after| {
        if let (Action::Yield, BUSY, Some(p)) = (before.action, after.reply.number, before.state.running(before.core)) {
            after.state.process_mut(p).progress = Progress::Nothing;
            after.reply = after.state.act(before.core as u32, before.action);
        }
    }),
];
