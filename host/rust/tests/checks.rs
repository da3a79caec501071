//! The three tests, short, on the library where it is linked and on the model: that each sees what it is to see, and can fail.

use fontarisca_host::compare::{self, Options};
use fontarisca_host::lent::Edge;
use fontarisca_host::model::{touched, Machine, Model, ALL_NUMBERS};
use fontarisca_host::{damage, library, mutants, order};

/// Every subject with every edge.
fn subjects() -> Vec<(Box<dyn Machine>, Edge)> {
    let mut subjects: Vec<(Box<dyn Machine>, Edge)> = Vec::new();
    for (edge, _) in Edge::ALL {
        subjects.push((Box::new(Model), edge));
        subjects.extend(library::open(edge).map(|library| (library, edge)));
    }
    subjects
}

#[test]
fn compare_agrees_and_sees_every_number() {
    for (mut machine, edge) in subjects() {
        let options = Options { seed: 11, calls: 60_000, edge, show: false };
        let report = compare::run(&mut *machine, options).unwrap_or_else(|failure| panic!("{}", failure.describe()));
        for (number, name) in ALL_NUMBERS {
            assert!(report.numbers.contains_key(&number), "{name} wasn't seen");
        }
    }
}

#[test]
fn damage_agrees() {
    for (mut machine, edge) in subjects() {
        let options = Options { seed: 12, calls: 60_000, edge, show: false };
        let report = damage::run(&mut *machine, options).unwrap_or_else(|failure| panic!("{}", failure.describe()));
        assert!(report.damaged > 1000 && report.still_sound > 1000);
    }
}

#[test]
fn order_makes_no_difference() {
    for (mut machine, edge) in subjects() {
        let options = Options { seed: 13, calls: 20_000, edge, show: false };
        let report = order::run(&mut *machine, touched, options).unwrap_or_else(|f| panic!("{}", f.describe()));
        assert!(report.pairs > report.disjoint);
    }
}

/// The variant with this name.
fn mutant(name: &str) -> mutants::Mutant {
    mutants::all().into_iter().find(|mutant| mutant.name == name).expect("there is such a variant")
}

#[test]
fn each_test_can_fail() {
    let options = Options { seed: 16, calls: 100_000, edge: Edge::Plain, show: false };
    assert!(compare::run(&mut mutant("transfers aren't counted"), options).is_err());
    assert!(damage::run(&mut mutant("a dispatch count of 33 is let pass"), options).is_err());
    assert!(order::run(&mut mutant("wake puts it on the core of its set-up"), touched, options).is_err());
}

#[test]
fn a_failing_script_is_cut_down() {
    let options = Options { seed: 15, calls: 100_000, edge: Edge::Plain, show: false };
    let mut mutant = mutants::all()[0];
    let Err(failure) = compare::run(&mut mutant, options) else {
        panic!("not caught: {}", mutant.name);
    };
    assert!(failure.script.calls.len() <= 20, "{}", failure.describe());
    assert!(compare::replay(&mut mutant, &failure.script, Edge::Plain).is_some());
    assert!(compare::replay(&mut Model, &failure.script, Edge::Plain).is_none());
}
