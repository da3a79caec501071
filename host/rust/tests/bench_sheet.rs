//! The bench sheet of document 01, case by case, on the model.

use std::collections::VecDeque;

use fontarisca_host::model::layout::{channel, Layout};
use fontarisca_host::model::number::*;
use fontarisca_host::model::*;

/// A wiring with these sizes and pairs.
fn wiring(cores: u32, processes: u32, pairs: &[(u32, u32)]) -> Wiring {
    let channels = pairs.len() as u32;
    Wiring { cores, processes, channels, pairs: pairs.iter().flat_map(|(writer, reader)| [*writer, *reader]).collect() }
}

/// The state after a set-up in a table of the right length.
fn fresh(cores: u32, processes: u32, pairs: &[(u32, u32)]) -> State {
    let wiring = wiring(cores, processes, pairs);
    set_up(&wiring, table_length(cores, processes, wiring.channels)).expect("a good set-up")
}

/// A set-up on a table of this length.
fn set_up_number(wiring: &Wiring, length: usize) -> Number {
    let mut table = vec![7; length];
    let number = set_up_table(&mut table, wiring);
    assert_eq!(sound(&table).is_some(), number == BUILT);
    number
}

/// A call on core 0 to 7 gives this number and these words, and leaves a sound state that packs and reads back.
fn expect(state: &mut State, core: u32, action: Action, number: Number, words: [u32; ANSWER_WORDS]) {
    assert_eq!(state.act(core, &action), Reply { number, words }, "{action:?}");
    assert_eq!(sound(&pack(state)).as_ref(), Some(&*state));
}

/// The word of channel 1 in the table.
fn channel_word(state: &State) -> u32 {
    let layout = Layout { cores: state.cores.len(), processes: state.processes.len() };
    pack(state)[layout.channel(1) + channel::WORD]
}

/// A step that answers MOVED.
fn moved(state: &mut State, core: u32) {
    expect(state, core, Action::Step, MOVED, [0, 0, 0]);
}

/// A state in which this process runs on core 0 with nothing in hand, and the others are asleep.
fn only_running(cores: u32, processes: u32, pairs: &[(u32, u32)], running: u32) -> State {
    let mut state = fresh(cores, processes, pairs);
    for core in &mut state.cores {
        core.run.clear();
    }
    for process in &mut state.processes {
        process.place = Place::Asleep;
    }
    state.process_mut(running).place = Place::Running;
    state.process_mut(running).progress = Progress::Nothing;
    state.cores[0].work = Work::Running(running);
    state
}

#[test]
fn case_01_smallest_table() {
    let smallest = wiring(1, 1, &[]);
    let length = table_length(1, 1, 0);
    assert_eq!(set_up_number(&smallest, length), BUILT);
    assert_eq!(set_up_number(&smallest, length - 1), ROOM);
    assert_eq!(set_up_number(&smallest, length + 1), ROOM);
}

#[test]
fn case_02_largest_table() {
    let pairs: Vec<(u32, u32)> = (0..256).map(|c| (c + 1, (c + 1) % 256 + 1)).collect();
    assert_eq!(set_up_number(&wiring(8, 256, &pairs), table_length(8, 256, 256)), BUILT);
    assert_eq!(set_up_number(&wiring(8, 257, &pairs), table_length(8, 257, 256)), SIZE);
    assert_eq!(set_up_number(&wiring(8, 257, &pairs), table_length(8, 256, 256)), SIZE);
}

#[test]
fn case_03_load() {
    for (size, dispatch) in [(1, 4), (7, 28), (8, 32), (9, 32)] {
        let mut state = fresh(1, size, &[]);
        let batch: VecDeque<u32> = (1..=size).collect();
        state.cores[0].run = VecDeque::from([batch.clone()]);
        moved(&mut state, 0);
        assert_eq!(state.cores[0].dispatch, dispatch);
        assert_eq!(state.cores[0].mark, size == 1);
        assert_eq!(state.cores[0].active, batch);
        assert!(state.cores[0].run.is_empty());
    }
}

/// The batches that a store of this active queue makes.
fn stored(queue: &[u32], mark: bool) -> VecDeque<VecDeque<u32>> {
    let mut state = fresh(1, 6, &[]);
    state.cores[0] = Core { active: queue.iter().copied().collect(), mark, ..Core::empty() };
    for p in 1..=6 {
        state.process_mut(p).place = if queue.contains(&p) { Place::Queued } else { Place::Asleep };
    }
    moved(&mut state, 0);
    assert!(state.cores[0].active.is_empty());
    state.cores[0].run.clone()
}

#[test]
fn case_04_store() {
    assert_eq!(stored(&[3, 5, 6], false), [VecDeque::from([3]), VecDeque::from([5, 6])]);
    assert_eq!(stored(&[3, 5, 6], true), [[3, 5, 6]]);
    assert_eq!(stored(&[3], false), [[3]]);
    assert_eq!(stored(&[3], true), [[3]]);
}

#[test]
fn case_05_one_core() {
    let mut state = fresh(1, 2, &[(1, 2)]);
    moved(&mut state, 0);
    expect(&mut state, 0, Action::Step, GO, [1, 0, 0]);
    expect(&mut state, 0, Action::Send { channel: 1, value: 77 }, TAKEN, [1, 1, 0]);
    moved(&mut state, 0);
    expect(&mut state, 0, Action::Step, SLEPT, [1, 0, 0]);
    moved(&mut state, 0);
    expect(&mut state, 0, Action::Step, GO, [2, 0, 0]);
    expect(&mut state, 0, Action::Receive { channel: 1 }, TAKEN, [2, 1, 0]);
    for _ in 0..3 {
        moved(&mut state, 0);
    }
    expect(&mut state, 0, Action::Step, GOT, [2, 1, 77]);
    assert_eq!(state.channel(1).transfers, 1);
}

#[test]
fn case_06_two_cores() {
    let mut state = fresh(2, 2, &[(1, 2)]);
    for core in 0..2 {
        moved(&mut state, core);
        expect(&mut state, core, Action::Step, GO, [core + 1, 0, 0]);
    }
    expect(&mut state, 0, Action::Send { channel: 1, value: 77 }, TAKEN, [1, 1, 0]);
    expect(&mut state, 1, Action::Receive { channel: 1 }, TAKEN, [2, 1, 0]);
    moved(&mut state, 0);
    moved(&mut state, 1);
    expect(&mut state, 1, Action::Step, SLEPT, [2, 0, 0]);
    moved(&mut state, 0);
    assert_eq!(channel_word(&state), 2);
    moved(&mut state, 0);
    moved(&mut state, 0);
    expect(&mut state, 0, Action::Step, SENT, [1, 1, 0]);
    assert_eq!(state.cores[0].active, [2]);
    assert_eq!(state.process(2).data, 77);
    assert_eq!(state.channel(1).word, Word::Nobody);
}

#[test]
fn case_07_ready_guard() {
    let mut state = only_running(1, 2, &[(1, 2)], 2);
    state.channel_mut(1).word = Word::Plain(1);
    expect(&mut state, 0, Action::Choose { guards: vec![1] }, TAKEN, [2, 0, 0]);
    for _ in 0..4 {
        moved(&mut state, 0);
    }
    expect(&mut state, 0, Action::Step, CHOSE, [2, 1, 0]);
    assert_eq!(state.process(2).alternation.count, 0);
}

#[test]
fn case_08_waiting_guard() {
    let mut state = only_running(1, 2, &[(1, 2)], 2);
    expect(&mut state, 0, Action::Choose { guards: vec![1] }, TAKEN, [2, 0, 0]);
    for _ in 0..3 {
        moved(&mut state, 0);
    }
    expect(&mut state, 0, Action::Step, SLEPT, [2, 0, 0]);
    assert_eq!(channel_word(&state), 5);
    let expected = Alternation { enabling: false, not_ready: false, waiting: true, count: 2 };
    assert_eq!(state.process(2).alternation, expected);
}

/// What a trigger of process 2 with this alternation state leaves: the count, and whether a wake follows.
fn triggered(waiting: bool, count: u32) -> (u32, bool) {
    let mut state = only_running(2, 2, &[(1, 2)], 1);
    state.process_mut(2).alternation = Alternation { waiting, count, ..Alternation::default() };
    state.cores[1].work = Work::Free(Task::Trigger(2));
    moved(&mut state, 1);
    let wakes = state.cores[1].work == Work::Free(Task::Wake(2));
    if wakes {
        moved(&mut state, 1);
        assert_eq!(state.cores[1].active, [2]);
    }
    assert_eq!(state.cores[1].work, Work::Free(Task::None));
    assert!(!state.process(2).alternation.waiting);
    (state.process(2).alternation.count, wakes)
}

#[test]
fn case_09_to_11_trigger() {
    assert_eq!(triggered(true, 2), (1, true));
    assert_eq!(triggered(false, 2), (1, false));
    assert_eq!(triggered(false, 1), (0, true));
}

#[test]
fn case_12_guards() {
    let pairs = [(1, 2); 10];
    let mut state = only_running(1, 2, &pairs, 2);
    expect(&mut state, 0, Action::Choose { guards: vec![1, 1] }, TWICE, [0, 0, 0]);
    expect(&mut state, 0, Action::Choose { guards: vec![] }, GUARDS, [0, 0, 0]);
    expect(&mut state, 0, Action::Choose { guards: (1..=9).collect() }, GUARDS, [0, 0, 0]);
    expect(&mut state, 0, Action::Choose { guards: (1..=8).collect() }, TAKEN, [2, 0, 0]);
}

#[test]
fn case_13_transfers_go_round() {
    let mut state = only_running(1, 2, &[(1, 2)], 1);
    state.channel_mut(1).transfers = 4294967295;
    state.process_mut(1).progress = Progress::Exchange { side: Side::Send, channel: 1, at: Exchange::Copy(2) };
    moved(&mut state, 0);
    assert_eq!(state.channel(1).transfers, 0);
}
