//! Sound tables with words changed: what a machine returns is what the model's own soundness test says.

use crate::compare::Options;
use crate::generate::{self, Size};
use crate::model::layout::{channel, core, header, process};
use crate::model::*;
use crate::random::Random;
use crate::script::*;

/// What a run saw: calls on tables that were no longer sound, and on tables that still were.
#[derive(Default)]
pub struct Report {
    pub tables: u64,
    pub damaged: u64,
    pub still_sound: u64,
}

/// A difference on a changed table.
pub struct Failure {
    pub after: u64,
    pub before: Vec<u32>,
    pub changes: Vec<(usize, u32)>,
    pub invocation: Invocation,
    pub lines: Vec<String>,
}

impl Failure {
    /// The failure for people.
    pub fn describe(&self) -> String {
        let mut lines = vec![format!("a difference, after {} calls, on", self.after)];
        lines.push(format!("  table of {}", describe_table(&self.before)));
        for (place, value) in &self.changes {
            lines.push(format!("  word {place} changed from {} to {value}", self.before[*place]));
        }
        lines.push(format!("  {}", self.invocation.describe()));
        lines.extend(self.lines.iter().map(|line| format!("  {line}")));
        lines.join("\n")
    }
}

/// One run's parts.
struct Run<'a> {
    machine: &'a mut dyn Machine,
    ground: Ground,
    random: Random,
    report: Report,
    show: bool,
}

/// Tables with changed words until there have been enough calls, or a difference.
pub fn run(machine: &mut dyn Machine, options: Options) -> Result<Report, Box<Failure>> {
    let ground = Ground::new(options.edge);
    let random = Random::new(options.seed);
    let mut run = Run { machine, ground, random, report: Report::default(), show: options.show };
    while run.calls() < options.calls {
        let size = Size::any(&mut run.random);
        let state = generate::sound_state(&mut run.random, size, 300);
        let table = pack(&state);
        run.lengths(&table)?;
        if size == Size::Tiny {
            run.sweep(&table)?;
        } else {
            run.some(&table)?;
        }
        run.doubles(&table)?;
        run.flaws(&state)?;
        run.report.tables += 1;
    }
    Ok(run.report)
}

impl Run<'_> {
    fn calls(&self) -> u64 {
        self.report.damaged + self.report.still_sound
    }

    /// Every word in turn, with every value.
    fn sweep(&mut self, table: &[u32]) -> Result<(), Box<Failure>> {
        for place in 0..table.len() {
            for value in values(table, place) {
                self.check(table, &[(place, value)])?;
            }
        }
        Ok(())
    }

    /// Some words, with every value.
    fn some(&mut self, table: &[u32]) -> Result<(), Box<Failure>> {
        for _ in 0..150 {
            let place = self.place(table);
            for value in values(table, place) {
                self.check(table, &[(place, value)])?;
            }
        }
        Ok(())
    }

    /// Two or three words at once.
    fn doubles(&mut self, table: &[u32]) -> Result<(), Box<Failure>> {
        for _ in 0..300 {
            let mut changes = Vec::new();
            for _ in 0..self.random.between(2, 3) {
                let place = self.place(table);
                let value = self.random.pick(&values(table, place));
                changes.push((place, value));
            }
            self.check(table, &changes)?;
        }
        Ok(())
    }

    /// States with one condition broken, packed.
    fn flaws(&mut self, state: &State) -> Result<(), Box<Failure>> {
        for _ in 0..100 {
            let mut flawed = state.clone();
            generate::flaw(&mut self.random, &mut flawed);
            self.check(&pack(&flawed), &[])?;
        }
        Ok(())
    }

    /// The table as it is, and with other lengths.
    fn lengths(&mut self, table: &[u32]) -> Result<(), Box<Failure>> {
        self.check(table, &[])?;
        let all = table.len();
        for length in [0, 1, 2, 3, header::WORDS - 1, header::WORDS, all - 1, all + 1, all + process::WORDS] {
            let mut other = table.to_vec();
            other.resize(length, 0);
            self.check(&other, &[])?;
        }
        Ok(())
    }

    /// A word of the table; half of them not 0.
    fn place(&mut self, table: &[u32]) -> usize {
        let wanted = self.random.chance(50);
        for _ in 0..50 {
            let place = self.random.below(table.len() as u32) as usize;
            if !wanted || table[place] != 0 {
                return place;
            }
        }
        0
    }

    /// One call on a changed table: mostly a step, now and then a request or a call with something else wrong.
    fn check(&mut self, table: &[u32], changes: &[(usize, u32)]) -> Result<(), Box<Failure>> {
        let mut changed = table.to_vec();
        for (place, value) in changes {
            changed[*place] = *value;
        }
        let invocation = self.invocation(&changed);
        if self.show {
            eprintln!("{changes:?} {}", invocation.describe());
        }
        let (length, call) = (invocation.answer_length, &invocation.call);
        let expected = self.ground.perform(&mut Model, &changed, length, call);
        let found = self.ground.perform(self.machine, &changed, length, call);
        match expected.number {
            number::DAMAGED => self.report.damaged += 1,
            _ => self.report.still_sound += 1,
        }
        if expected == found {
            return Ok(());
        }
        let lines = differences(&expected, &found);
        let (before, changes) = (table.to_vec(), changes.to_vec());
        Err(Box::new(Failure { after: self.calls(), before, changes, invocation, lines }))
    }

    /// The call to make on a changed table.
    fn invocation(&mut self, changed: &[u32]) -> Invocation {
        let cores = changed.get(header::CORES).copied().unwrap_or(1).clamp(1, 8);
        let core = self.random.below(cores);
        let action = match sound(changed) {
            Some(state) if core < state.cores.len() as u32 => generate::action(&mut self.random, &state, core as usize),
            _ if self.random.chance(10) => self.random.pick(&[Action::Yield, Action::Receive { channel: 1 }]),
            _ => Action::Step,
        };
        let core = if self.random.chance(2) { 8 } else { core };
        let mut invocation = plain(core, action);
        if self.random.chance(2) {
            invocation.answer_length = self.random.pick(&[0, 2, 4]);
        }
        invocation
    }
}

/// What to set a word to: 0, 1, one more, one less, the largest number, the neighbours' values, and those that the
/// same word has in the records beside.
fn values(table: &[u32], place: usize) -> Vec<u32> {
    let word = table[place];
    let at = |place: usize| table.get(place).copied().unwrap_or(0);
    let mut values = vec![0, 1, word.wrapping_add(1), word.wrapping_sub(1), u32::MAX];
    for distance in [1, process::WORDS, core::WORDS, channel::WORDS] {
        values.extend([place.wrapping_sub(distance), place + distance].map(at));
    }
    values.retain(|value| *value != word);
    values.sort_unstable();
    values.dedup();
    values
}
