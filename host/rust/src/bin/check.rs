//! Runs the checks from a shell: check compare | damage | order | mutants.

use std::process::ExitCode;
use std::time::Instant;

use fontarisca_host::compare::{self, Both, Options};
use fontarisca_host::lent::Edge;
use fontarisca_host::model::{name, touched, Machine, Model};
use fontarisca_host::plain::Plain;
use fontarisca_host::{damage, library, mutants, order};

const USAGE: &str = "check compare | damage | order | mutants
  --seed NUMBER                   the seed, to repeat a run (otherwise from the clock)
  --calls NUMBER                  calls (order: pairs with disjoint lists; mutants: of each test)
  --edge plain | end | start | all  on which side of the lent slices an inaccessible page lies
  --subject library | model | plain | both
                                  what is checked (the library where it is linked; both: it and the plain version)
  --show                          prints every call before it is made
  --all                           mutants: every test on each, not only up to the first that catches it
  --says                          mutants: what the test that caught it says";

/// What is checked.
#[derive(Clone, Copy)]
enum Subject {
    Library,
    Model,
    Plain,
    Both,
}

/// What the shell asks for.
struct Wanted {
    what: String,
    seed: u64,
    calls: Option<u64>,
    edges: Vec<Edge>,
    subject: Subject,
    show: bool,
    all: bool,
    says: bool,
}

fn main() -> ExitCode {
    let wanted = match read_arguments() {
        Ok(wanted) => wanted,
        Err(message) => {
            eprintln!("{message}\n{USAGE}");
            return ExitCode::from(2);
        }
    };
    let good = match wanted.what.as_str() {
        "mutants" => run_mutants(&wanted),
        _ => wanted.edges.iter().zip(wanted.seed..).all(|(edge, seed)| run_check(&wanted, *edge, seed)),
    };
    if good {
        ExitCode::SUCCESS
    } else {
        ExitCode::FAILURE
    }
}

/// The arguments as they stand on the command line.
fn read_arguments() -> Result<Wanted, String> {
    let mut arguments = std::env::args().skip(1);
    let what = arguments.next().unwrap_or_default();
    if !["compare", "damage", "order", "mutants"].contains(&what.as_str()) {
        return Err(format!("no such check: {what:?}"));
    }
    let clock = std::time::SystemTime::now().duration_since(std::time::UNIX_EPOCH);
    let seed = clock.map_or(1, |time| time.as_nanos() as u64 % 1_000_000_000);
    let edges = Edge::ALL.iter().map(|(edge, _)| *edge).collect();
    let subject = if library::LINKED { Subject::Library } else { Subject::Model };
    let mut wanted = Wanted { what, seed, calls: None, edges, subject, show: false, all: false, says: false };
    while let Some(argument) = arguments.next() {
        let mut value = || arguments.next().ok_or(format!("{argument} wants a value"));
        match argument.as_str() {
            "--seed" => wanted.seed = number(&value()?)?,
            "--calls" => wanted.calls = Some(number(&value()?)?),
            "--edge" => wanted.edges = edges_named(&value()?)?,
            "--subject" => wanted.subject = subject_named(&value()?)?,
            "--show" => wanted.show = true,
            "--all" => wanted.all = true,
            "--says" => wanted.says = true,
            _ => return Err(format!("no such option: {argument}")),
        }
    }
    Ok(wanted)
}

fn number(text: &str) -> Result<u64, String> {
    text.parse().map_err(|_| format!("not a number: {text}"))
}

fn edges_named(text: &str) -> Result<Vec<Edge>, String> {
    let named = |(_, name): &&(Edge, &str)| *name == text || text == "all";
    let edges: Vec<Edge> = Edge::ALL.iter().filter(named).map(|(edge, _)| *edge).collect();
    if edges.is_empty() {
        return Err(format!("no such edge: {text}"));
    }
    Ok(edges)
}

fn subject_named(text: &str) -> Result<Subject, String> {
    match text {
        "model" => Ok(Subject::Model),
        "plain" => Ok(Subject::Plain),
        "library" if library::LINKED => Ok(Subject::Library),
        "both" if library::LINKED => Ok(Subject::Both),
        "library" | "both" => Err("the library isn't linked: set FONTARISCA_LIB and build again".to_string()),
        _ => Err(format!("no such subject: {text}")),
    }
}

/// What is checked, with its lists against this edge; and its name.
fn machine(subject: Subject, edge: Edge) -> (Box<dyn Machine>, &'static str) {
    match (subject, library::open(edge)) {
        (Subject::Library, Some(library)) => (library, "library"),
        (Subject::Both, Some(one)) => (Box::new(Both { one, other: Box::new(Plain) }), "library and the plain version"),
        (Subject::Plain, _) => (Box::new(Plain), "plain version"),
        _ => (Box::new(Model), "model"),
    }
}

/// One check with one edge; says what it saw.
fn run_check(wanted: &Wanted, edge: Edge, seed: u64) -> bool {
    let (mut machine, of) = machine(wanted.subject, edge);
    let usual = match wanted.what.as_str() {
        "compare" => 1_200_000,
        "damage" => 900_000,
        _ => 300_000,
    };
    let calls = wanted.calls.unwrap_or(usual) / wanted.edges.len() as u64;
    let options = Options { seed, calls, edge, show: wanted.show };
    println!("{} of the {of}: edge {}, seed {seed}, {calls} calls", wanted.what, edge.name());
    let start = Instant::now();
    let seen = match wanted.what.as_str() {
        "compare" => compare::run(&mut *machine, options).map(describe_compare).map_err(|f| f.describe()),
        "damage" => damage::run(&mut *machine, options).map(describe_damage).map_err(|f| f.describe()),
        _ => order::run(&mut *machine, touched, options).map(describe_order).map_err(|f| f.describe()),
    };
    let took = start.elapsed().as_secs_f64();
    match &seen {
        Ok(seen) => println!("  good in {took:.1} s: {seen}"),
        Err(failure) => println!("  FAILED in {took:.1} s: {failure}"),
    }
    seen.is_ok()
}

fn describe_compare(report: compare::Report) -> String {
    let numbers: Vec<String> =
        report.numbers.iter().map(|(number, times)| format!("{} {times}", name(*number))).collect();
    format!("{} calls in {} scripts; {}", report.calls, report.scripts, numbers.join(", "))
}

fn describe_damage(report: damage::Report) -> String {
    let damage::Report { tables, damaged, still_sound } = report;
    format!("{tables} tables; {damaged} calls DAMAGED, {still_sound} on tables still sound")
}

fn describe_order(report: order::Report) -> String {
    format!("{} pairs of calls, {} with disjoint lists", report.pairs, report.disjoint)
}

/// Every variant of the model with a fault, and which test caught it after how many calls.
fn run_mutants(wanted: &Wanted) -> bool {
    let calls = wanted.calls.unwrap_or(400_000);
    let options = Options { seed: wanted.seed, calls, edge: Edge::Plain, show: wanted.show };
    println!("mutants: seed {}, at most {calls} calls of each test", options.seed);
    let start = Instant::now();
    let all = mutants::all();
    let mut missed = 0;
    for mutant in &all {
        let caught = mutants::hunt(mutant, options, wanted.all);
        for catch in &caught {
            println!("{}: caught by {:?} after {}", mutant.name, catch.test, catch.after);
            if wanted.says {
                println!("{}", catch.says);
            }
        }
        if caught.is_empty() {
            println!("{}: NOT CAUGHT", mutant.name);
            missed += 1;
        }
    }
    println!("{} of {} caught in {:.1} s", all.len() - missed, all.len(), start.elapsed().as_secs_f64());
    missed == 0
}
