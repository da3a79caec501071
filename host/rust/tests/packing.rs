//! The packing: the table by hand, round trips, and that random states are sound.

use fontarisca_host::generate::{self, Size};
use fontarisca_host::model::*;
use fontarisca_host::random::Random;

/// The table that the packing page gives by hand.
const BY_HAND: [u32; 76] = [
    1, 2, 1, 0, 0, 0, 0, 0, //
    0, 0, 0, 0, 0, 0, 3, 1, 2, 2, 0, 0, 0, 0, 0, 0, //
    3, 77, 0, 0, 0, 0, 21, 1, 0, 0, 0, 0, 0, 0, 0, 0, 0, 0, 0, 0, 0, 0, 0, 0, //
    2, 0, 0, 0, 0, 0, 20, 0, 0, 0, 0, 0, 0, 0, 0, 0, 0, 0, 0, 0, 0, 2, 1, 0, //
    1, 2, 2, 0,
];

#[test]
fn lengths() {
    assert_eq!(table_length(1, 1, 0), 48);
    assert_eq!(table_length(8, 256, 256), 7304);
}

#[test]
fn table_by_hand() {
    let wiring = Wiring { cores: 1, processes: 2, channels: 1, pairs: vec![1, 2] };
    let mut state = set_up(&wiring, BY_HAND.len()).expect("a good set-up");
    let send = Action::Send { channel: 1, value: 77 };
    for action in [&Action::Step, &Action::Step, &send, &Action::Step, &Action::Step] {
        assert!(state.act(0, action).accepted());
    }
    assert_eq!(pack(&state), BY_HAND);
    assert_eq!(sound(&BY_HAND), Some(state));
}

#[test]
fn random_states_are_sound() {
    let mut random = Random::new(1);
    for _ in 0..20_000 {
        let size = Size::any(&mut random);
        let wiring = generate::wiring(&mut random, size);
        let state = generate::state(&mut random, &wiring);
        assert!(valid(&state));
        assert_eq!(sound(&pack(&state)).as_ref(), Some(&state));
    }
}

#[test]
fn runs_stay_sound() {
    let mut random = Random::new(2);
    for _ in 0..2_000 {
        let mut state = generate::sound_state(&mut random, Size::Tiny, 100);
        for _ in 0..100 {
            let core = random.below(state.cores.len() as u32);
            let action = generate::action(&mut random, &state, core as usize);
            let before = state.clone();
            let reply = state.act(core, &action);
            assert!(reply.accepted() || state == before);
            assert_eq!(sound(&pack(&state)).as_ref(), Some(&state));
        }
    }
}

#[test]
fn different_states_have_different_packings() {
    let mut random = Random::new(3);
    let mut seen = std::collections::HashMap::new();
    for _ in 0..20_000 {
        let state = generate::sound_state(&mut random, Size::Tiny, 30);
        let earlier = seen.entry(pack(&state)).or_insert_with(|| state.clone());
        assert_eq!(*earlier, state);
    }
}
