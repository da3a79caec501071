//! Random calls on the model and on another machine: number, words and the whole table after every call.

use std::collections::BTreeMap;

use crate::generate::{self, Size};
use crate::lent::Edge;
use crate::model::layout::{channel, header, process};
use crate::model::*;
use crate::random::Random;
use crate::script::*;

/// What a run is given.
#[derive(Clone, Copy, Debug)]
pub struct Options {
    pub seed: u64,
    pub calls: u64,
    pub edge: Edge,
    pub show: bool,
}

/// What a run saw: how often each number was returned, and how many scripts there were.
#[derive(Default)]
pub struct Report {
    pub numbers: BTreeMap<Number, u64>,
    pub scripts: u64,
    pub calls: u64,
}

/// A difference, with the list of calls that leads to it, cut down.
pub struct Failure {
    pub after: u64,
    pub script: Script,
    pub lines: Vec<String>,
}

impl Failure {
    /// The failure for people.
    pub fn describe(&self) -> String {
        let mut lines = vec![format!("a difference, after {} calls; cut down to:", self.after)];
        lines.push(format!("  start: {}", describe_table(&self.script.start)));
        for invocation in &self.script.calls {
            lines.push(format!("  {}", invocation.describe()));
        }
        lines.extend(self.lines.iter().map(|line| format!("  {line}")));
        lines.join("\n")
    }
}

/// Two machines on the same calls.
pub struct Both {
    pub one: Box<dyn Machine>,
    pub other: Box<dyn Machine>,
}

/// What two machines that differ in anything return: a number of no call.
const APART: Number = u32::MAX;

impl Machine for Both {
    fn call(&mut self, table: &mut [u32], answer: &mut [u32], call: &Call) -> Number {
        let (mut other_table, mut other_answer) = (table.to_vec(), answer.to_vec());
        let number = self.one.call(table, answer, call);
        let other_number = self.other.call(&mut other_table, &mut other_answer, call);
        if (number, &*table, &*answer) == (other_number, &other_table[..], &other_answer[..]) {
            number
        } else {
            APART
        }
    }
}

/// The model's side of a run: its state, where the table is sound, and the table as it should be.
struct Side {
    state: Option<State>,
    table: Vec<u32>,
    next: Vec<u32>,
}

impl Side {
    fn new(start: &[u32]) -> Side {
        Side { state: sound(start), table: start.to_vec(), next: Vec::new() }
    }

    /// The reply that the model gives to a call on a table of this length; an accepted call moves it on.
    fn reply(&mut self, invocation: &Invocation, length: usize) -> Reply {
        let reply = match &invocation.call {
            Call::SetUp(wiring) => match set_up(wiring, length) {
                Ok(state) => {
                    self.state = Some(state);
                    Reply::new(number::BUILT, 0, 0, 0)
                }
                Err(refusal) => Reply::refused(refusal),
            },
            Call::Act { .. } if invocation.answer_length != ANSWER_WORDS => Reply::refused(number::ANSWER),
            Call::Act { .. } if invocation.table_change != 0 => Reply::refused(number::DAMAGED),
            Call::Act { core, action } => match &mut self.state {
                Some(state) => state.act(*core, action),
                None => Reply::refused(number::DAMAGED),
            },
        };
        if let Some(state) = &self.state {
            pack_into(state, &mut self.next);
            assert!(reply.accepted() || self.next == self.table, "the model's refusals change nothing");
        }
        reply
    }
}

/// One call on both; gives the number where they agree, and what differs where they don't.
fn make(
    ground: &mut Ground,
    machine: &mut dyn Machine,
    side: &mut Side,
    invocation: &Invocation,
) -> Result<Number, Vec<String>> {
    let length = (side.table.len() as i64 + i64::from(invocation.table_change)).max(0) as usize;
    let mut given = side.table.clone();
    given.resize(length, 0);
    let found = if invocation.table_change == 0 {
        let table = ground.table.words(length);
        let answer = fresh_answer(&mut ground.answer, invocation.answer_length);
        let number = machine.call(table, answer, &invocation.call);
        Effect { number, answer: answer.to_vec(), table: table.to_vec() }
    } else {
        ground.perform(machine, &given, invocation.answer_length, &invocation.call)
    };
    let reply = side.reply(invocation, length);
    let mut answer: Vec<u32> = (0..invocation.answer_length).map(unwritten).collect();
    if reply.accepted() {
        if reply.number != number::BUILT {
            answer.copy_from_slice(&reply.words);
        }
        side.table.clone_from(&side.next);
        given.clone_from(&side.next);
    }
    let expected = Effect { number: reply.number, answer, table: given };
    if expected != found {
        return Err(differences(&expected, &found));
    }
    if invocation.table_change != 0 {
        ground.table.copy_of(&side.table);
    }
    Ok(reply.number)
}

/// Runs a script on both; gives what differs, and at which call.
pub fn replay(machine: &mut dyn Machine, script: &Script, edge: Edge) -> Option<(usize, Vec<String>)> {
    let mut ground = Ground::new(edge);
    let mut side = Side::new(&script.start);
    ground.table.copy_of(&script.start);
    for (place, invocation) in script.calls.iter().enumerate() {
        if let Err(lines) = make(&mut ground, machine, &mut side, invocation) {
            return Some((place, lines));
        }
    }
    None
}

/// Random scripts until there have been enough calls, or a difference.
pub fn run(machine: &mut dyn Machine, options: Options) -> Result<Report, Failure> {
    let mut random = Random::new(options.seed);
    let mut report = Report::default();
    let mut ground = Ground::new(options.edge);
    while report.calls < options.calls {
        let (start, mut first) = start(&mut random);
        let mut script = Script { start, calls: Vec::new() };
        let mut side = Side::new(&script.start);
        let mut stuck = [false; 8];
        ground.table.copy_of(&script.start);
        for turn in 0..random.between(20, 400) {
            let invocation = first.take().unwrap_or_else(|| next(&mut random, &side, turn, &stuck));
            if options.show {
                eprintln!("{}", invocation.describe());
            }
            script.calls.push(invocation.clone());
            report.calls += 1;
            match make(&mut ground, machine, &mut side, &invocation) {
                Ok(number) => {
                    *report.numbers.entry(number).or_default() += 1;
                    note(&mut stuck, &invocation.call, number);
                }
                Err(_) => return Err(failure(machine, &script, options.edge, report.calls)),
            }
            let cores = side.state.as_ref().map_or(8, |state| state.cores.len());
            if stuck[..cores].iter().all(|stuck| *stuck) && random.chance(30) {
                break;
            }
        }
        report.scripts += 1;
    }
    Ok(report)
}

/// Notes that a core can't go on for now, or that it has gone on.
fn note(stuck: &mut [bool; 8], call: &Call, number: Number) {
    match call {
        Call::Act { core: core @ 0..=7, action: Action::Step } => {
            stuck[*core as usize] = matches!(number, number::IDLE | number::FAULT);
        }
        Call::SetUp(_) if number == number::BUILT => *stuck = [false; 8],
        _ => {}
    }
}

/// What a script starts from: a random sound table, or any words with a set-up as the first call.
fn start(random: &mut Random) -> (Vec<u32>, Option<Invocation>) {
    let size = Size::any(random);
    let wiring = generate::wiring(random, size);
    if random.chance(40) {
        return (pack(&generate::state(random, &wiring)), None);
    }
    let length = table_length(wiring.cores, wiring.processes, wiring.channels);
    let words = (0..length).map(|_| random.word() >> random.below(32)).collect();
    (words, Some(Invocation { call: Call::SetUp(wiring), answer_length: 0, table_change: 0 }))
}

/// The next call, by what the model's state is.
fn next(random: &mut Random, side: &Side, turn: u32, stuck: &[bool; 8]) -> Invocation {
    let Some(state) = &side.state else {
        return odd(random, side, 0);
    };
    let cores = state.cores.len() as u32;
    let mut core = if random.chance(70) { turn % cores } else { random.below(cores) };
    for _ in 0..6 {
        if stuck[core as usize] {
            core = random.below(cores);
        }
    }
    if random.chance(4) {
        return odd(random, side, core);
    }
    plain(core, generate::action(random, state, core as usize))
}

/// A call with something wrong about its slices, its core or its set-up.
fn odd(random: &mut Random, side: &Side, core: u32) -> Invocation {
    let action = side.state.as_ref().map_or(Action::Step, |state| generate::action(random, state, core as usize));
    let cores = side.state.as_ref().map_or(1, |state| state.cores.len() as u32);
    let mut invocation = plain(core, action.clone());
    if random.chance(40) {
        invocation.answer_length = random.pick(&[0, 1, 2, 4, 5, 100]);
    }
    if random.chance(40) {
        let length = side.table.len() as i32;
        let [header, process, channel] = [header::WORDS, process::WORDS, channel::WORDS].map(|words| words as i32);
        let changes = [-1, 1, channel, -channel, process, -length, 1 - length, 2 - length, header - length];
        invocation.table_change = random.pick(&changes);
    }
    if random.chance(40) {
        let any = random.word();
        let core = random.pick(&[cores, cores + 1, 8, u32::MAX, any]);
        invocation.call = Call::Act { core, action };
    }
    if random.chance(30) {
        let wiring = match &side.state {
            Some(state) if random.chance(70) => generate::wiring_of(state),
            _ => generate::wiring(random, Size::Tiny),
        };
        invocation.call = Call::SetUp(generate::spoil(random, wiring));
        invocation.answer_length = 0;
    }
    invocation
}

/// The failure that a script leads to, cut down.
fn failure(machine: &mut dyn Machine, script: &Script, edge: Edge, after: u64) -> Failure {
    let mut short = cut_down(script, &mut |tried| replay(machine, tried, edge).is_some());
    let empty = Script { start: vec![0; short.start.len()], calls: short.calls.clone() };
    if replay(machine, &empty, edge).is_some() {
        short = empty;
    }
    let lines = match replay(machine, &short, edge) {
        Some((place, lines)) => {
            let at = format!("at call {} of these:", place + 1);
            std::iter::once(at).chain(lines).collect()
        }
        None => vec!["it didn't come again: the machine keeps something between calls".to_string()],
    };
    Failure { after, script: short, lines }
}
