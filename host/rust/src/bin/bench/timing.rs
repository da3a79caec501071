//! Times subjects in turn, again and again, and keeps the best time of each stretch of calls, so that other work on the machine matters
//! little.

use std::time::Instant;

use fontarisca_host::model::number::{CORE, FIRST_REFUSAL};

use crate::ring::Script;
use crate::subjects::{Lent, Library, Modelled, Plain, Subject};

/// How many calls make a stretch, and how often a table is checked in a row.
pub const STRETCH: usize = 1000;
pub const CHECKS: usize = 20;

/// Nanoseconds for each of three things, of one subject.
#[derive(Clone, Copy, Debug)]
pub struct Times {
    pub call: f64,
    pub check: f64,
    pub unchecked: f64,
}

/// The times of the library, the plain version and the model on one script.
pub struct Row {
    pub library: Times,
    pub plain: Times,
    pub model: Times,
}

/// Times the three on each script in turn, so many rounds.
pub fn rows(scripts: &[Script], rounds: usize) -> Vec<Row> {
    let new = |script: &Script| [Best::new(script), Best::new(script), Best::new(script)];
    let mut all: Vec<[Best; 3]> = scripts.iter().map(new).collect();
    for _ in 0..rounds {
        for (script, best) in scripts.iter().zip(&mut all) {
            best[0].round(script, &mut Library);
            best[1].round(script, &mut Plain);
            best[2].round(script, &mut Modelled { state: None });
        }
    }
    let row = |(script, best): (&Script, [Best; 3])| {
        let [library, plain, model] = best.map(|best| best.times(script));
        Row { library, plain, model }
    };
    scripts.iter().zip(all).map(row).collect()
}

/// The best time of each stretch so far.
struct Best {
    calls: Vec<f64>,
    checks: Vec<f64>,
    unchecked: Vec<f64>,
}

impl Best {
    fn new(script: &Script) -> Best {
        let stretches = vec![f64::INFINITY; script.calls.len().div_ceil(STRETCH)];
        Best { calls: stretches.clone(), checks: vec![f64::INFINITY; script.tables.len()], unchecked: stretches }
    }

    /// Times one subject once; what it leaves must be what the script says.
    fn round(&mut self, script: &Script, subject: &mut impl Subject) {
        let mut lent = Lent::of(&script.start);
        subject.begin(&mut lent, &script.start);
        for (calls, best) in script.calls.chunks(STRETCH).zip(&mut self.calls) {
            keep_best(
                best,
                || calls.iter().fold(0, |most, call| most.max(subject.call(&mut lent, *call))),
                FIRST_REFUSAL - 1,
            );
        }
        assert!(lent.table == script.end, "the calls left another table");
        for (table, best) in script.tables.iter().zip(&mut self.checks) {
            lent.table.copy_from_slice(table);
            assert!(subject.check(&mut lent) == CORE, "the table isn't sound");
            keep_best(best, || (0..CHECKS).fold(0, |most, _| most.max(subject.check(&mut lent))), CORE);
        }
        subject.begin(&mut lent, &script.start);
        for (calls, best) in script.calls.chunks(STRETCH).zip(&mut self.unchecked) {
            keep_best(
                best,
                || calls.iter().fold(0, |most, call| most.max(subject.unchecked(&mut lent, *call))),
                FIRST_REFUSAL - 1,
            );
        }
        assert!(subject.table(&lent) == script.end, "the calls without the check left another table");
    }

    /// The nanoseconds of one call, of one check, of one call without it.
    fn times(&self, script: &Script) -> Times {
        let (calls, checks) = (script.calls.len() as f64, (script.tables.len() * CHECKS) as f64);
        Times {
            call: self.calls.iter().sum::<f64>() / calls,
            check: self.checks.iter().sum::<f64>() / checks,
            unchecked: self.unchecked.iter().sum::<f64>() / calls,
        }
    }
}

/// Times work whose numbers are to be at most this.
fn keep_best(best: &mut f64, work: impl FnOnce() -> u32, most: u32) {
    let start = Instant::now();
    let number = work();
    *best = best.min(start.elapsed().as_nanos() as f64);
    assert!(number <= most, "a call was refused with {number}");
}
