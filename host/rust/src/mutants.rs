//! Variants of the model with one deliberate fault each; each must be caught by a test.

mod calls;
mod items;
mod rules;
mod tables;

use crate::compare::{self, Options};
use crate::damage;
use crate::model::*;
use crate::order::{self, Touched};

/// A variant of the model.
#[derive(Clone, Copy)]
pub struct Mutant {
    pub name: &'static str,
    pub fault: Fault,
}

/// Where the fault is.
#[derive(Clone, Copy)]
pub enum Fault {
    /// In a rule: what the right rule gives is changed.
    Rule(fn(&Before, &mut After)),
    /// In the soundness test.
    Sound(fn(&[u32]) -> Option<State>),
    /// In what surrounds the rules: the order of refusals, what is written where.
    Call(fn(&mut [u32], &mut [u32], &Call) -> Number),
    /// In the list of touched items.
    Touched(Touched),
}

/// What a faulty rule starts from.
pub struct Before<'a> {
    pub state: &'a State,
    pub core: usize,
    pub action: &'a Action,
}

/// What the right rule gives, to be changed.
pub struct After {
    pub reply: Reply,
    pub state: State,
}

/// Every variant.
pub fn all() -> Vec<Mutant> {
    [rules::all(), tables::all(), calls::all(), items::all()].concat()
}

impl Machine for Mutant {
    fn call(&mut self, table: &mut [u32], answer: &mut [u32], call: &Call) -> Number {
        match (self.fault, call) {
            (Fault::Call(faulty), call) => faulty(table, answer, call),
            (Fault::Sound(faulty), Call::Act { core, action }) => {
                act_on_table(table, answer, faulty, |state| state.act(*core, action)).number
            }
            (Fault::Rule(faulty), Call::Act { core, action }) => {
                act_on_table(table, answer, sound, |state| act_faulty(faulty, state, *core, action)).number
            }
            (_, call) => Model.call(table, answer, call),
        }
    }
}

/// The right rule, and then the fault.
fn act_faulty(faulty: fn(&Before, &mut After), state: &mut State, core: u32, action: &Action) -> Reply {
    let before = state.clone();
    let reply = state.act(core, action);
    if reply.number == number::CORE {
        return reply;
    }
    let mut after = After { reply, state: state.clone() };
    faulty(&Before { state: &before, core: core as usize, action }, &mut after);
    *state = after.state;
    after.reply
}

/// The three tests.
#[derive(Clone, Copy, Debug, PartialEq, Eq)]
pub enum Test {
    Compare,
    Damage,
    Order,
}

/// A test that caught a variant: after how many calls, and what it says.
pub struct Caught {
    pub test: Test,
    pub after: u64,
    pub says: String,
}

/// Runs the tests on a variant, the one that the fault is most likely to meet first; all of them, or up to a catch.
pub fn hunt(mutant: &Mutant, options: Options, all: bool) -> Vec<Caught> {
    let tests: &[Test] = match mutant.fault {
        Fault::Rule(_) | Fault::Call(_) => &[Test::Compare, Test::Damage, Test::Order],
        Fault::Sound(_) => &[Test::Damage, Test::Compare, Test::Order],
        Fault::Touched(_) => &[Test::Order],
    };
    let mut caught = Vec::new();
    for test in tests {
        if all || caught.is_empty() {
            caught.extend(try_test(*test, mutant, options));
        }
    }
    caught
}

/// One test on a variant.
fn try_test(test: Test, mutant: &Mutant, options: Options) -> Option<Caught> {
    let mut machine = *mutant;
    let list = if let Fault::Touched(faulty) = mutant.fault { faulty } else { touched };
    let failed = match test {
        Test::Compare => compare::run(&mut machine, options).err().map(|f| (f.after, f.describe())),
        Test::Damage => damage::run(&mut machine, options).err().map(|f| (f.after, f.describe())),
        Test::Order => order::run(&mut machine, list, options).err().map(|f| (f.after, f.describe())),
    };
    failed.map(|(after, says)| Caught { test, after, says })
}
