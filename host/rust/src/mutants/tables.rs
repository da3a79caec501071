//! Faulty soundness tests.

use super::{Fault, Mutant};
use crate::model::layout::{channel, core, header, place, process, progress, task, Layout, Part};
use crate::model::*;

/// Every variant with a faulty soundness test.
pub fn all() -> Vec<Mutant> {
    [RANGE_FAULTS, UNREAD_FAULTS, PLACE_FAULTS, STRICT_FAULTS].concat()
}

/// A variant with this faulty soundness test.
const fn test(name: &'static str, fault: fn(&[u32]) -> Option<State>) -> Mutant {
    Mutant { name, fault: Fault::Sound(fault) }
}

/// Where things stand in a table with a good header.
fn layout_of(table: &[u32]) -> Layout {
    Layout { cores: table[header::CORES] as usize, processes: table[header::PROCESSES] as usize }
}

/// The part that a word of a table with a good header belongs to.
fn part(table: &[u32], place: usize) -> Part {
    layout_of(table).part(place)
}

/// A word of core k.
fn word_of_core(table: &[u32], k: usize, word: usize) -> u32 {
    table[layout_of(table).core(k) + word]
}

/// The right test on a table in which some words are put right first.
fn after_repair(table: &[u32], repair: impl Fn(Part, u32) -> u32) -> Option<State> {
    let header_good = table.len() > header::WORDS
        && (1..=8).contains(&table[header::CORES])
        && (1..=256).contains(&table[header::PROCESSES]);
    if !header_good {
        return sound(table);
    }
    let repaired: Vec<u32> = (0..table.len()).map(|place| repair(part(table, place), table[place])).collect();
    sound(&repaired)
}

/// A test that doesn't look at some words.
fn not_looking(table: &[u32], unread: impl Fn(Part) -> bool) -> Option<State> {
    let state = read(table).filter(valid)?;
    let packed = pack(&state);
    let same = |place: usize| packed[place] == table[place] || unread(part(table, place));
    (0..table.len()).all(same).then_some(state)
}

/// A test that lets a flaw of the state pass: the flaw is put right before the state is tested.
fn forgiving(table: &[u32], repair: impl Fn(&mut State)) -> Option<State> {
    let state = read(table)?;
    let mut repaired = state.clone();
    repair(&mut repaired);
    let fits = valid(&repaired) && valid_names(&state) && pack(&state) == table;
    fits.then_some(repaired)
}

/// Whether the state can be packed at all.
fn valid_names(state: &State) -> bool {
    let most = state.processes.len() as u32;
    let small = |word: Word| !matches!(word, Word::Plain(q) | Word::Choosing(q) if q > 1 << 30);
    state.cores.iter().all(|core| core.queued().all(|p| p <= most)) && state.channels.iter().all(|c| small(c.word))
}

/// A test that wants more than the right one.
fn strict(table: &[u32], wanted: impl Fn(&State) -> bool) -> Option<State> {
    sound(table).filter(wanted)
}

/// Ranges that are too wide.
const RANGE_FAULTS: &[Mutant] = &[
    test("a dispatch count of 33 is let pass", |table| {
        after_repair(table, |part, word| match part {
            Part::Core(_, core::DISPATCH) if word == 33 => 32,
            _ => word,
        })
    }),
    test("a count of 10 is let pass", |table| {
        after_repair(table, |part, word| match part {
            Part::Process(_, process::COUNT) if word == 10 => 9,
            _ => word,
        })
    }),
    test("a mark of 2 is let pass", |table| {
        after_repair(table, |part, word| match part {
            Part::Core(_, core::MARK) if word == 2 => 1,
            _ => word,
        })
    }),
    test("flags above 1 are let pass", |table| {
        after_repair(table, |part, word| match part {
            Part::Process(_, process::ENABLING | process::NOT_READY | process::WAITING) => word.min(1),
            _ => word,
        })
    }),
    test("a place of 5 is let pass", |table| {
        after_repair(table, |part, word| match part {
            Part::Process(_, process::PLACE) if word == place::ENDED + 1 => place::ENDED,
            _ => word,
        })
    }),
    test("an outcome of 24 is let pass", |table| {
        after_repair(table, |part, word| match part {
            Part::Process(_, process::PROGRESS) if word == progress::DUE_CHOSE + 1 => progress::DUE_CHOSE,
            _ => word,
        })
    }),
    test("a word that says nobody is choosing is let pass", |table| {
        after_repair(table, |part, word| match part {
            Part::Channel(channel::WORD) if word == 1 => 0,
            _ => word,
        })
    }),
    test("a word of process N+1 is let pass", |table| {
        let after_last = table.get(header::PROCESSES).copied().unwrap_or(0).wrapping_add(1);
        after_repair(table, |part, word| match part {
            Part::Channel(channel::WORD) if word / 2 == after_last => 0,
            _ => word,
        })
    }),
    test("a task of process N+1 is let pass", |table| {
        let after_last = table.get(header::PROCESSES).copied().unwrap_or(0).wrapping_add(1);
        after_repair(table, |part, word| match part {
            Part::Core(_, core::TASK_PROCESS) if word == after_last => 1,
            _ => word,
        })
    }),
    test("a guard index one beyond the list is let pass", |table| {
        forgiving(table, |state| repair_choices(state, |index, length| index.min(length), |first, _| first))
    }),
    test("a guard index of 0 is let pass", |table| {
        forgiving(table, |state| repair_choices(state, |index, _| index.max(1), |first, _| first))
    }),
    test("a first ready guard one beyond the list is let pass", |table| {
        forgiving(table, |state| {
            repair_choices(state, |index, _| index, |first, length| first.filter(|f| *f <= length))
        })
    }),
    test("a repeated guard is let pass", |table| forgiving(table, shorten_repeats)),
];

/// Changes the guard index and the first ready guard of every choice.
fn repair_choices(state: &mut State, of_index: fn(u32, u32) -> u32, of_first: fn(Option<u32>, u32) -> Option<u32>) {
    for process in &mut state.processes {
        if let Progress::Choice { guards, at } = &mut process.progress {
            let length = guards.len() as u32;
            match at {
                Choice::Look(index) | Choice::Raise(index) | Choice::Place(index) => *index = of_index(*index, length),
                Choice::ReadyFromLook(index) | Choice::ReadyFromPlace(index) => *index = of_index(*index, length),
                Choice::Wait => {}
                Choice::Disable { index, first } | Choice::Lower { index, first } => {
                    *index = of_index(*index, length);
                    *first = of_first(*first, length);
                }
                Choice::Finish { first } => *first = of_first(*first, length),
            }
        }
    }
}

/// Takes repeated guards out of every choice, with indices as if they lay in the rest.
fn shorten_repeats(state: &mut State) {
    for process in &mut state.processes {
        if let Progress::Choice { guards, .. } = &mut process.progress {
            let mut kept = Vec::new();
            for guard in guards.iter() {
                if !kept.contains(guard) {
                    kept.push(*guard);
                }
            }
            *guards = kept;
        }
    }
    repair_choices(state, |index, length| index.clamp(1, length.max(1)), |first, length| first.map(|f| f.min(length)));
}

/// Words that nobody looks at.
const UNREAD_FAULTS: &[Mutant] = &[
    test("the rest of the header isn't looked at", |table| {
        not_looking(table, |part| matches!(part, Part::Header(header::UNUSED..)))
    }),
    test("the rest of a core's record isn't looked at", |table| {
        not_looking(table, |part| matches!(part, Part::Core(_, core::UNUSED..)))
    }),
    test("a task beside a running process is let pass", |table| {
        let runs = |k| word_of_core(table, k, core::RUNNING) != 0;
        not_looking(table, |part| matches!(part, Part::Core(k, core::TASK | core::TASK_PROCESS) if runs(k)))
    }),
    test("the process of no task isn't looked at", |table| {
        let no_task = |k| word_of_core(table, k, core::TASK) == task::NONE;
        not_looking(table, |part| matches!(part, Part::Core(k, core::TASK_PROCESS) if no_task(k)))
    }),
    test("the active queue's last isn't looked at", |table| {
        not_looking(table, |part| matches!(part, Part::Core(_, core::ACTIVE_LAST)))
    }),
    test("the active queue's size isn't looked at", |table| {
        not_looking(table, |part| matches!(part, Part::Core(_, core::ACTIVE_SIZE)))
    }),
    test("the run queue's last isn't looked at", |table| {
        not_looking(table, |part| matches!(part, Part::Core(_, core::RUN_LAST)))
    }),
    test("unused channels aren't looked at", |table| {
        not_looking(table, |part| matches!(part, Part::Process(_, process::CHANNEL)))
    }),
    test("unused partners aren't looked at", |table| {
        not_looking(table, |part| matches!(part, Part::Process(_, process::PARTNER)))
    }),
    test("unused guards aren't looked at", |table| {
        not_looking(table, |part| matches!(part, Part::Process(_, process::FIRST_GUARD..=process::LAST_GUARD)))
    }),
    test("unused numbers of guards aren't looked at", |table| {
        not_looking(table, |part| matches!(part, Part::Process(_, process::GUARDS)))
    }),
    test("unused indices aren't looked at", |table| {
        not_looking(table, |part| matches!(part, Part::Process(_, process::GUARD_INDEX | process::FIRST_READY)))
    }),
    test("the link of one in no queue isn't looked at", |table| {
        not_looking(table, |part| matches!(part, Part::Process(_, process::NEXT)))
    }),
    test("a batch's last isn't looked at", |table| {
        not_looking(table, |part| matches!(part, Part::Process(_, process::BATCH_LAST)))
    }),
    test("a batch's size isn't looked at", |table| {
        not_looking(table, |part| matches!(part, Part::Process(_, process::BATCH_SIZE)))
    }),
    test("batch links of others aren't looked at", |table| {
        not_looking(table, |part| matches!(part, Part::Process(_, process::BATCH_AFTER)))
    }),
    test("sizes of batches after the third aren't looked at", |table| {
        let state = read(table)?;
        let deep = |p: u32| state.cores.iter().any(|core| core.run.iter().skip(3).any(|b| b.front() == Some(&p)));
        not_looking(table, |part| matches!(part, Part::Process(p, process::BATCH_SIZE) if deep(p)))
    }),
];

/// Conditions on places, progress and channels that are left out.
const PLACE_FAULTS: &[Mutant] = &[
    test("the place of one in a queue isn't looked at", |table| forgiving(table, repair_places)),
    test("a running process may have an outcome due", |table| {
        forgiving(table, |state| {
            clear_progress(state, |process| {
                process.place == Place::Running && matches!(process.progress, Progress::Due(_))
            })
        })
    }),
    test("an ended process may have something in hand", |table| {
        forgiving(table, |state| clear_progress(state, |process| process.place == Place::Ended))
    }),
    test("one asleep may have nothing in hand", |table| {
        forgiving(table, |state| {
            for process in &mut state.processes {
                if process.place == Place::Asleep && process.progress == Progress::Nothing {
                    process.progress = Progress::Due(Outcome::Go);
                }
            }
        })
    }),
    test("writer and reader may be the same", |table| {
        forgiving(table, |state| {
            let most = state.processes.len() as u32;
            for channel in state.channels.iter_mut().filter(|channel| channel.writer == channel.reader) {
                channel.writer = channel.reader % most + 1;
            }
        })
    }),
    test("a reader may send", |table| forgiving(table, clear_foreign_sends)),
    test("a process may run on two cores", |table| {
        forgiving(table, |state| {
            for core in 1..state.cores.len() {
                let p = state.running(core);
                if p.is_some() && (0..core).any(|other| state.running(other) == p) {
                    state.cores[core].work = Work::Free(Task::None);
                }
            }
        })
    }),
    test("one asleep may stand in an active queue", |table| {
        forgiving(table, |state| {
            for core in 0..state.cores.len() {
                let State { cores, processes, .. } = &mut *state;
                cores[core].active.retain(|p| processes.get(*p as usize - 1).is_some_and(|q| q.place != Place::Asleep));
            }
        })
    }),
];

/// Gives each process that runs or is queued the place that it has.
fn repair_places(state: &mut State) {
    let queued: Vec<u32> = state.cores.iter().flat_map(|core| core.queued().collect::<Vec<_>>()).collect();
    for p in queued {
        if p as usize <= state.processes.len() {
            state.process_mut(p).place = Place::Queued;
        }
    }
}

/// Takes the progress of some processes away.
fn clear_progress(state: &mut State, wrong: impl Fn(&Process) -> bool) {
    for process in state.processes.iter_mut().filter(|process| wrong(process)) {
        process.progress = Progress::Nothing;
    }
}

/// Turns the sends of processes that aren't the writer into a GO that is due, or nothing.
fn clear_foreign_sends(state: &mut State) {
    let writers: Vec<u32> = state.channels.iter().map(|channel| channel.writer).collect();
    for (p, process) in (1..).zip(&mut state.processes) {
        if let Progress::Exchange { side: Side::Send, channel, .. } = process.progress {
            if channel >= 1 && writers.get(channel as usize - 1).is_some_and(|writer| *writer != p) {
                let running = process.place == Place::Running;
                process.progress = if running { Progress::Nothing } else { Progress::Due(Outcome::Go) };
            }
        }
    }
}

/// Conditions that document 01 does not make.
const STRICT_FAULTS: &[Mutant] = &[
    test("a count of 9 is refused", |table| {
        strict(table, |state| state.processes.iter().all(|process| process.alternation.count < 9))
    }),
    test("a dispatch count of 32 is refused", |table| {
        strict(table, |state| state.cores.iter().all(|core| core.dispatch < 32))
    }),
    test("a partner must be an end of the channel", |table| {
        strict(table, |state| state.processes.iter().all(|process| partner_is_end(state, process)))
    }),
    test("a task's process must be asleep", |table| {
        strict(table, |state| {
            state.cores.iter().all(|core| match core.work {
                Work::Free(Task::Trigger(q) | Task::Wake(q)) => state.process(q).place == Place::Asleep,
                _ => true,
            })
        })
    }),
    test("a word must name an end of its channel", |table| {
        strict(table, |state| {
            state.channels.iter().all(|channel| match channel.word {
                Word::Nobody => true,
                Word::Plain(q) | Word::Choosing(q) => q == channel.writer || q == channel.reader,
            })
        })
    }),
    test("the first ready guard must come before the index", |table| {
        strict(table, |state| {
            state.processes.iter().all(|process| match process.progress {
                Progress::Choice { at: Choice::Disable { index, first }, .. } => first.is_none_or(|f| f < index),
                _ => true,
            })
        })
    }),
    test("a queued process may not be in a send or receive", |table| {
        strict(table, |state| {
            state
                .processes
                .iter()
                .all(|process| process.place != Place::Queued || !matches!(process.progress, Progress::Exchange { .. }))
        })
    }),
    test("the largest table is refused", |table| strict(table, |state| state.processes.len() < 256)),
];

/// Whether the partner in a progress is an end of the channel.
fn partner_is_end(state: &State, process: &Process) -> bool {
    match process.progress {
        Progress::Exchange { channel, at: Exchange::Copy(q) | Exchange::Clear(q) | Exchange::Wake(q), .. } => {
            let channel = state.channel(channel);
            q == channel.writer || q == channel.reader
        }
        _ => true,
    }
}
