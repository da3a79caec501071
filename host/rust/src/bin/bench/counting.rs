//! Counts instructions: the program runs itself under valgrind, which sees only what goes on inside the functions that are timed.

use std::process::Command;

use crate::ring::Script;
use crate::subjects::{Lent, Library, Plain, Subject};

/// What is counted.
#[derive(Clone, Copy)]
pub enum Thing {
    Call,
    Check,
    Unchecked,
}

/// Of whom.
#[derive(Clone, Copy)]
pub enum Who {
    Library,
    Plain,
}

impl Thing {
    const ALL: [(Thing, &'static str); 3] =
        [(Thing::Call, "call"), (Thing::Check, "check"), (Thing::Unchecked, "unchecked")];

    /// The thing with this name.
    pub fn named(name: &str) -> Result<Thing, String> {
        let found = Thing::ALL.iter().find(|(_, known)| *known == name);
        found.map(|(thing, _)| *thing).ok_or(format!("nothing to count: {name}"))
    }
}

impl Who {
    const ALL: [(Who, &'static str); 2] = [(Who::Library, "library"), (Who::Plain, "plain")];

    /// The one with this name.
    pub fn named(name: &str) -> Result<Who, String> {
        let found = Who::ALL.iter().find(|(_, known)| *known == name);
        found.map(|(who, _)| *who).ok_or(format!("nobody to count: {name}"))
    }

    /// What the names of the functions to watch begin with, as valgrind knows them.
    fn functions(self, thing: Thing) -> &'static str {
        match (self, thing) {
            (Who::Library, Thing::Call | Thing::Check) => "fontarisca_",
            (Who::Library, Thing::Unchecked) => "unchecked_",
            (Who::Plain, Thing::Call | Thing::Check) => "bench::subjects::checked_",
            (Who::Plain, Thing::Unchecked) => "bench::subjects::plain_",
        }
    }
}

/// The instructions of one call, one check, one call without it.
pub struct Counts {
    pub call: f64,
    pub check: f64,
    pub unchecked: f64,
}

/// The calls of the script that is counted.
const CALLS: usize = 2000;

/// The counts of the library and of the plain version on a ring of this size; nothing where there is no valgrind.
pub fn counts(processes: u32) -> Option<(Counts, Counts)> {
    Some((counts_of(Who::Library, processes)?, counts_of(Who::Plain, processes)?))
}

fn counts_of(who: Who, processes: u32) -> Option<Counts> {
    let [call, check, unchecked] = Thing::ALL.map(|(thing, name)| count(thing, name, who, processes));
    Some(Counts { call: call?, check: check?, unchecked: unchecked? })
}

/// Runs the program itself under valgrind.
fn count(thing: Thing, name: &str, who: Who, processes: u32) -> Option<f64> {
    let of = Who::ALL[who as usize].1;
    let output = Command::new("valgrind")
        .args(["--tool=callgrind", "--callgrind-out-file=/dev/null", "--collect-atstart=no"])
        .args(["step", "send", "receive"].map(|name| format!("--toggle-collect={}{name}", who.functions(thing))))
        .arg(std::env::current_exe().ok()?)
        .args(["--calls", &CALLS.to_string(), "--count", name, of, &processes.to_string()])
        .output()
        .ok()?;
    let says = String::from_utf8_lossy(&output.stderr).into_owned();
    let collected = says.lines().find_map(|line| line.split("Collected :").nth(1))?;
    let made = String::from_utf8_lossy(&output.stdout).trim().parse::<f64>().ok()?;
    Some(collected.trim().parse::<f64>().ok()? / made)
}

/// Makes the calls of a thing once and prints how many they were.
pub fn perform(thing: Thing, who: Who, script: &Script) {
    let made = match who {
        Who::Library => perform_by(&mut Library, thing, script),
        Who::Plain => perform_by(&mut Plain, thing, script),
    };
    println!("{made}");
}

/// Makes the calls and gives how many they were.
fn perform_by(subject: &mut impl Subject, thing: Thing, script: &Script) -> usize {
    let mut lent = Lent::of(&script.start);
    if let Thing::Check = thing {
        for table in &script.tables {
            lent.table.copy_from_slice(table);
            subject.check(&mut lent);
        }
        return script.tables.len();
    }
    for call in &script.calls {
        match thing {
            Thing::Unchecked => subject.unchecked(&mut lent, *call),
            _ => subject.call(&mut lent, *call),
        };
    }
    script.calls.len()
}
