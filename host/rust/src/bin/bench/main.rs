//! Times the library, the plain version and the model on scripts recorded from a ring, and writes the page with the figures.

mod counting;
mod report;
mod ring;
mod subjects;
mod timing;

use std::process::ExitCode;

use counting::{Thing, Who};
use report::Measured;

const USAGE: &str = "bench
  --rounds NUMBER         how often each is timed (25)
  --calls NUMBER          how many calls a script has (20000)
  --page TEMPLATE FILE    writes the page: the template with the figures in it
  --count THING WHO N     makes the calls of a thing once, for an instruction counter to watch";

/// How many cores the ring has, and the numbers of processes that are timed.
const CORES: u32 = 4;
const SIZES: [u32; 3] = [16, 64, 256];

/// What the shell asks for.
struct Wanted {
    rounds: usize,
    calls: usize,
    page: Option<(String, String)>,
    count: Option<(Thing, Who, u32)>,
}

fn main() -> ExitCode {
    let done = read_arguments().and_then(|wanted| match wanted.count {
        Some((thing, who, processes)) => {
            counting::perform(thing, who, &ring::record(CORES, processes, wanted.calls));
            Ok(())
        }
        None => measure(&wanted),
    });
    if let Err(message) = done {
        eprintln!("{message}\n{USAGE}");
        return ExitCode::from(2);
    }
    ExitCode::SUCCESS
}

/// The arguments as they stand on the command line.
fn read_arguments() -> Result<Wanted, String> {
    let mut arguments = std::env::args().skip(1);
    let mut wanted = Wanted { rounds: 25, calls: 20_000, page: None, count: None };
    while let Some(argument) = arguments.next() {
        let mut value = || arguments.next().ok_or(format!("{argument} wants a value"));
        match argument.as_str() {
            "--rounds" => wanted.rounds = number(&value()?)?,
            "--calls" => wanted.calls = number(&value()?)?,
            "--page" => wanted.page = Some((value()?, value()?)),
            "--count" => {
                let (thing, who, processes) = (Thing::named(&value()?)?, Who::named(&value()?)?, number(&value()?)?);
                wanted.count = Some((thing, who, processes as u32));
            }
            _ => return Err(format!("no such option: {argument}")),
        }
    }
    Ok(wanted)
}

fn number(text: &str) -> Result<usize, String> {
    text.parse().ok().filter(|number| *number > 0).ok_or(format!("not a number above 0: {text}"))
}

/// Times and counts every size, prints the figures, and writes the page where one is wanted.
fn measure(wanted: &Wanted) -> Result<(), String> {
    let scripts = SIZES.map(|processes| ring::record(CORES, processes, wanted.calls));
    let mut measured = Vec::new();
    for ((processes, script), row) in SIZES.into_iter().zip(&scripts).zip(timing::rows(&scripts, wanted.rounds)) {
        let counts = wanted.page.as_ref().and_then(|_| counting::counts(processes));
        measured.push(Measured { processes, row, counts, words: script.start.len(), steps: script.steps() });
    }
    let figures = report::figures(&measured, CORES, wanted.calls, wanted.rounds);
    println!("{figures}");
    if let Some((template, page)) = &wanted.page {
        let text = std::fs::read_to_string(template).map_err(|error| format!("{template}: {error}"))?;
        let text = report::page(&text, &figures, &measured)?;
        std::fs::write(page, text).map_err(|error| format!("{page}: {error}"))?;
        println!("written to {page}");
    }
    Ok(())
}
