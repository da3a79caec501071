//! Two calls on different cores that touch no item in common: either order gives the same.

use std::collections::BTreeSet;

use crate::compare::Options;
use crate::generate::{self, Size};
use crate::model::*;
use crate::random::Random;
use crate::script::*;

/// A list of touched items: the model's own, or a faulty one.
pub type Touched = fn(&State, u32, &Action) -> BTreeSet<Item>;

/// What a run saw: pairs of calls, and those of them with disjoint lists.
#[derive(Default)]
pub struct Report {
    pub pairs: u64,
    pub disjoint: u64,
}

/// Two calls whose order makes a difference.
pub struct Failure {
    pub after: u64,
    pub table: Vec<u32>,
    pub calls: [Invocation; 2],
    pub lines: Vec<String>,
}

impl Failure {
    /// The failure for people.
    pub fn describe(&self) -> String {
        let mut lines = vec![format!("the order makes a difference, after {} pairs, on", self.after)];
        lines.push(format!("  table of {}", describe_table(&self.table)));
        lines.extend(self.calls.iter().map(|call| format!("  {}", call.describe())));
        lines.extend(self.lines.iter().map(|line| format!("  {line}")));
        lines.join("\n")
    }
}

/// Pairs of calls on random sound tables until there have been enough with disjoint lists, or a difference.
pub fn run(machine: &mut dyn Machine, touched: Touched, options: Options) -> Result<Report, Box<Failure>> {
    let mut random = Random::new(options.seed);
    let mut ground = Ground::new(options.edge);
    let mut report = Report::default();
    while report.disjoint < options.calls {
        let size = if random.chance(80) { Size::Tiny } else { Size::any(&mut random) };
        let state = generate::sound_state(&mut random, size, 100);
        if state.cores.len() < 2 {
            continue;
        }
        let table = pack(&state);
        for _ in 1..state.cores.len() {
            let calls = two_calls(&mut random, &state);
            report.pairs += 1;
            let [first, second] = calls.each_ref().map(|invocation| items(touched, &state, &invocation.call));
            if !first.is_disjoint(&second) {
                continue;
            }
            report.disjoint += 1;
            if options.show {
                eprintln!("{}; {}", calls[0].describe(), calls[1].describe());
            }
            let lines = both_orders(&mut ground, machine, &table, &calls);
            if !lines.is_empty() {
                return Err(Box::new(Failure { after: report.pairs, table, calls, lines }));
            }
        }
    }
    Ok(report)
}

/// The items that a call touches.
fn items(touched: Touched, state: &State, call: &Call) -> BTreeSet<Item> {
    match call {
        Call::Act { core, action } => touched(state, *core, action),
        Call::SetUp(_) => BTreeSet::new(),
    }
}

/// Two calls on different cores; now and then one on a core that doesn't exist.
fn two_calls(random: &mut Random, state: &State) -> [Invocation; 2] {
    let cores = state.cores.len() as u32;
    let first = random.below(cores);
    let second = (first + random.between(1, cores - 1)) % cores;
    let mut calls = [first, second].map(|core| plain(core, generate::action(random, state, core as usize)));
    if random.chance(3) {
        if let Call::Act { core, .. } = &mut calls[1].call {
            *core = random.pick(&[cores, cores + 1, u32::MAX]);
        }
    }
    if random.chance(3) {
        calls[random.clone().below(2) as usize].answer_length = random.pick(&[0, 2, 4]);
    }
    calls
}

/// Makes both calls in both orders and gives what differs.
fn both_orders(ground: &mut Ground, machine: &mut dyn Machine, table: &[u32], calls: &[Invocation; 2]) -> Vec<String> {
    let [first, second] = calls;
    let mut make = |table: &[u32], invocation: &Invocation| {
        ground.perform(machine, table, invocation.answer_length, &invocation.call)
    };
    let first_early = make(table, first);
    let second_late = make(&first_early.table, second);
    let second_early = make(table, second);
    let first_late = make(&second_early.table, first);
    let mut lines = Vec::new();
    for (which, early, late) in [("first", &first_early, &first_late), ("second", &second_early, &second_late)] {
        if (early.number, &early.answer) != (late.number, &late.answer) {
            let (early_name, late_name) = (name(early.number), name(late.number));
            lines.push(format!(
                "the {which} call gives {early_name} {:?} when it comes first, {late_name} {:?} when it comes second",
                early.answer, late.answer
            ));
        }
    }
    let words = second_late.table.iter().zip(&first_late.table).enumerate();
    for (place, (one, other)) in words.filter(|(_, (one, other))| one != other).take(12) {
        lines.push(format!("table word {place}: {one} in this order, {other} in the other"));
    }
    lines
}
