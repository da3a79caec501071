//! The figures as text, and the page that they stand in.

use crate::counting::Counts;
use crate::timing::{Row, Times, CHECKS, STRETCH};

/// What was measured on a ring of one size.
pub struct Measured {
    pub processes: u32,
    pub words: usize,
    pub steps: usize,
    pub row: Row,
    pub counts: Option<(Counts, Counts)>,
}

/// One of the three things that are timed.
struct Thing {
    name: &'static str,
    time: fn(&Times) -> f64,
    count: fn(&Counts) -> f64,
}

const CALL: Thing = Thing { name: "a call", time: |times| times.call, count: |counts| counts.call };
const CHECK: Thing = Thing { name: "the check alone", time: |times| times.check, count: |counts| counts.check };
const UNCHECKED: Thing =
    Thing { name: "a call without the check", time: |times| times.unchecked, count: |counts| counts.unchecked };

/// What a ratio is to be at most.
const AIM: f64 = 1.2;

/// The tables and what they say.
pub fn figures(measured: &[Measured], cores: u32, calls: usize, rounds: usize) -> String {
    let mut text = format!(
        "K = {cores}; {calls} calls a script; the best of {rounds} rounds of each stretch of {STRETCH} calls, and of each\n\
         {CHECKS} checks of one table. Times in nanoseconds, instructions as valgrind counts them.\n\n\
         | N | | library | plain Rust | model | library / plain | library / model | instructions: library | plain | ratio |\n\
         |---|---|---|---|---|---|---|---|---|---|\n"
    );
    for one in measured {
        for thing in [CALL, CHECK, UNCHECKED] {
            text += &line(one, &thing);
        }
    }
    text += &growth(measured);
    text += &verdict(measured);
    text
}

/// One line of the table.
fn line(one: &Measured, thing: &Thing) -> String {
    let [library, plain, model] = [&one.row.library, &one.row.plain, &one.row.model].map(thing.time);
    let counted = match &one.counts {
        Some((library, plain)) => {
            let (library, plain) = ((thing.count)(library), (thing.count)(plain));
            format!("{library:.0} | {plain:.0} | {:.2}", library / plain)
        }
        None => "- | - | -".to_string(),
    };
    format!(
        "| {} | {} | {library:.1} | {plain:.1} | {model:.1} | {:.2} | {:.2} | {counted} |\n",
        one.processes,
        thing.name,
        library / plain,
        library / model
    )
}

/// How the times grow with N.
fn growth(measured: &[Measured]) -> String {
    let first = &measured[0];
    let mut text = format!(
        "\nHow much more than at N = {}:\n\n\
         | N | words of the table | library: a call | the check | without the check | plain: a call | the check | without the check |\n\
         |---|---|---|---|---|---|---|---|\n",
        first.processes
    );
    for one in measured {
        let times = |now: &Times, then: &Times| {
            let more = [CALL, CHECK, UNCHECKED].map(|thing| format!("{:.2}", (thing.time)(now) / (thing.time)(then)));
            more.join(" | ")
        };
        let words = one.words as f64 / first.words as f64;
        let (library, plain) = (times(&one.row.library, &first.row.library), times(&one.row.plain, &first.row.plain));
        text += &format!("| {} | {words:.2} | {library} | {plain} |\n", one.processes);
    }
    text
}

/// The worst ratio of library to plain version against the aim, of the check and of a call without it.
fn verdict(measured: &[Measured]) -> String {
    let of = |thing: &Thing| {
        let ratios = measured.iter().map(|one| (thing.time)(&one.row.library) / (thing.time)(&one.row.plain));
        let (least, most) =
            ratios.fold((f64::MAX, 0.0), |(least, most): (f64, f64), ratio| (least.min(ratio), most.max(ratio)));
        let met = if most <= AIM { "met" } else { "not met" };
        format!(
            "- {}: {least:.2} to {most:.2} times the plain version's time; the aim of at most {AIM} is {met}.\n",
            thing.name
        )
    };
    format!("\n{}{}", of(&CHECK), of(&UNCHECKED))
}

/// The template with the figures, the script's steps and the compiler in their places.
pub fn page(template: &str, figures: &str, measured: &[Measured]) -> Result<String, String> {
    let steps: Vec<String> = measured.iter().map(|one| one.steps.to_string()).collect();
    let places = [
        ("{figures}", figures.trim_end()),
        ("{steps}", &steps.join(", ")),
        ("{compiler}", env!("COMPILER")),
        ("{processor}", &processor()),
    ];
    let mut text = template.to_string();
    for (place, with) in places {
        if !text.contains(place) {
            return Err(format!("the template has no {place}"));
        }
        text = text.replace(place, with);
    }
    Ok(text)
}

/// The name of the processor's model, as Linux gives it.
fn processor() -> String {
    let known = std::fs::read_to_string("/proc/cpuinfo").unwrap_or_default();
    let named = known.lines().find_map(|line| line.strip_prefix("model name")?.split(": ").nth(1).map(str::to_string));
    named.unwrap_or_else(|| "unknown".to_string())
}
