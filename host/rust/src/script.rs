//! Calls as a test makes them, on lent memory; how they are printed and how a failing list of them is cut down.

use crate::lent::{Edge, Lent};
use crate::model::*;

/// A call with the length of its answer slice, and by how much the table's length is off.
#[derive(Clone, Debug, PartialEq, Eq)]
pub struct Invocation {
    pub call: Call,
    pub answer_length: usize,
    pub table_change: i32,
}

/// A table to start from, and calls one after the other.
#[derive(Clone, Debug)]
pub struct Script {
    pub start: Vec<u32>,
    pub calls: Vec<Invocation>,
}

/// What a call returned and what it left behind.
#[derive(Clone, Debug, PartialEq, Eq)]
pub struct Effect {
    pub number: Number,
    pub answer: Vec<u32>,
    pub table: Vec<u32>,
}

/// The table and the answer slice that are lent to a machine.
pub struct Ground {
    pub table: Lent,
    pub answer: Lent,
}

impl Ground {
    /// Ground whose slices lie against this edge.
    pub fn new(edge: Edge) -> Ground {
        Ground { table: Lent::new(edge), answer: Lent::new(edge) }
    }

    /// Makes one call on a copy of this table.
    pub fn perform(&mut self, machine: &mut dyn Machine, table: &[u32], answer_length: usize, call: &Call) -> Effect {
        let lent = self.table.copy_of(table);
        let answer = fresh_answer(&mut self.answer, answer_length);
        let number = machine.call(lent, answer, call);
        Effect { number, answer: answer.to_vec(), table: lent.to_vec() }
    }
}

/// What stands in word i of an answer slice before a call.
pub fn unwritten(i: usize) -> u32 {
    0xa5a5_a500 + i as u32
}

/// An answer slice of this length with nothing written yet.
pub fn fresh_answer(lent: &mut Lent, length: usize) -> &mut [u32] {
    let answer = lent.words(length);
    for (i, word) in answer.iter_mut().enumerate() {
        *word = unwritten(i);
    }
    answer
}

/// A plain call with an answer slice and a table of the right lengths.
pub fn plain(core: u32, action: Action) -> Invocation {
    Invocation { call: Call::Act { core, action }, answer_length: ANSWER_WORDS, table_change: 0 }
}

/// A call for people.
pub fn describe(call: &Call) -> String {
    match call {
        Call::SetUp(wiring) => {
            let Wiring { cores, processes, channels, pairs } = wiring;
            format!("set-up K={cores} N={processes} M={channels} pairs {pairs:?}")
        }
        Call::Act { core, action } => match action {
            Action::Send { channel, value } => format!("core {core}: send {value} on channel {channel}"),
            Action::Receive { channel } => format!("core {core}: receive on channel {channel}"),
            Action::Choose { guards } => format!("core {core}: choose over {guards:?}"),
            Action::Yield => format!("core {core}: yield"),
            Action::End => format!("core {core}: end"),
            Action::Step => format!("core {core}: step"),
        },
    }
}

impl Invocation {
    /// The call for people, with what is odd about its slices.
    pub fn describe(&self) -> String {
        let mut text = describe(&self.call);
        if self.answer_length != ANSWER_WORDS && !matches!(self.call, Call::SetUp(_)) {
            text += &format!(", answer of {} words", self.answer_length);
        }
        if self.table_change != 0 {
            text += &format!(", table length off by {}", self.table_change);
        }
        text
    }
}

/// The words of a table that aren't 0, for people.
pub fn describe_table(table: &[u32]) -> String {
    let words = table.iter().enumerate().filter(|(_, word)| **word != 0);
    let words: Vec<String> = words.map(|(place, word)| format!("{place}:{word}")).collect();
    match words.is_empty() {
        true => format!("{} words, all 0", table.len()),
        false => format!("{} words, those not 0: {}", table.len(), words.join(" ")),
    }
}

/// How two results differ, for people; nothing where they don't.
pub fn differences(expected: &Effect, found: &Effect) -> Vec<String> {
    let mut lines = Vec::new();
    if expected.number != found.number {
        lines.push(format!("number: expected {}, found {}", name(expected.number), name(found.number)));
    }
    if expected.answer != found.answer {
        lines.push(format!("answer: expected {:?}, found {:?}", expected.answer, found.answer));
    }
    if expected.table.len() != found.table.len() {
        lines.push(format!("table: expected {} words, found {}", expected.table.len(), found.table.len()));
    }
    let words = expected.table.iter().zip(&found.table).enumerate();
    for (place, (expected, found)) in words.filter(|(_, (expected, found))| expected != found).take(12) {
        lines.push(format!("table word {place}: expected {expected}, found {found}"));
    }
    lines
}

/// Cuts a failing list of calls down: drops calls, many at first and then single ones, while it still fails.
pub fn cut_down(script: &Script, fails: &mut dyn FnMut(&Script) -> bool) -> Script {
    let mut short = script.clone();
    let mut size = short.calls.len().div_ceil(2).max(1);
    loop {
        let before = short.calls.len();
        let mut place = 0;
        while place < short.calls.len() {
            let mut tried = short.clone();
            tried.calls.drain(place..(place + size).min(short.calls.len()));
            if fails(&tried) {
                short = tried;
            } else {
                place += size;
            }
        }
        if size == 1 && short.calls.len() == before {
            return short;
        }
        size = size.div_ceil(2).max(1);
    }
}
