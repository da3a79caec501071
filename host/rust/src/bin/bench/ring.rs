//! A script of calls, recorded once from a ring: tokens go round, and each element adds one.

use fontarisca_host::model::number::*;
use fontarisca_host::model::*;

/// A call of the script.
#[derive(Clone, Copy, Debug)]
pub enum Call {
    Step { core: u32 },
    Send { core: u32, channel: u32, value: u32 },
    Receive { core: u32, channel: u32 },
}

/// A table to start from, the calls, the table that they leave, and every so often one on the way.
pub struct Script {
    pub start: Vec<u32>,
    pub calls: Vec<Call>,
    pub end: Vec<u32>,
    pub tables: Vec<Vec<u32>>,
}

/// How many calls lie between two of the tables that are kept.
const APART: usize = 100;

/// Records so many calls of a ring: channel p goes from process p to the next, with a token for every fourth process. Who gets the
/// bus is a seeded choice; a core that is idle gives it back, and its call isn't recorded.
pub fn record(cores: u32, processes: u32, length: usize) -> Script {
    let pairs = (1..=processes).flat_map(|p| [p, p % processes + 1]).collect();
    let wiring = Wiring { cores, processes, channels: processes, pairs };
    let room = table_length(cores, processes, processes);
    let mut state = set_up(&wiring, room).expect("the ring is a good set-up");
    let mut script = Script { start: pack(&state), calls: Vec::new(), end: Vec::new(), tables: Vec::new() };
    let mut elements = Elements::new(processes);
    let mut seed: u64 = 1;
    while script.calls.len() < length {
        seed = seed.wrapping_mul(6364136223846793005).wrapping_add(1442695040888963407);
        let core = ((seed >> 33) % u64::from(cores)) as u32;
        let call = match state.running(core as usize) {
            Some(p) if state.process(p).progress == Progress::Nothing => elements.request(core, p),
            _ => Call::Step { core },
        };
        let reply = state.act(core, &action(call));
        elements.hear(&reply);
        if reply.number == IDLE {
            continue;
        }
        if script.calls.len().is_multiple_of(APART) {
            script.tables.push(pack(&state));
        }
        script.calls.push(call);
    }
    script.end = pack(&state);
    script
}

impl Script {
    /// How many of the calls are steps.
    pub fn steps(&self) -> usize {
        self.calls.iter().filter(|call| matches!(call, Call::Step { .. })).count()
    }
}

impl Call {
    /// The core that the call is on.
    pub fn core(self) -> u32 {
        match self {
            Call::Step { core } | Call::Send { core, .. } | Call::Receive { core, .. } => core,
        }
    }
}

/// The call as the model takes it.
pub fn action(call: Call) -> Action {
    match call {
        Call::Step { .. } => Action::Step,
        Call::Send { channel, value, .. } => Action::Send { channel, value },
        Call::Receive { channel, .. } => Action::Receive { channel },
    }
}

/// What each process of the ring does next.
struct Elements {
    next: Vec<Next>,
    tokens: u32,
}

/// Receives from the one before it, or sends this value on.
#[derive(Clone, Copy)]
enum Next {
    Receive,
    Send(u32),
}

impl Elements {
    /// Process 1 sends the tokens out; the others receive first.
    fn new(processes: u32) -> Elements {
        let mut next = vec![Next::Receive; processes as usize];
        next[0] = Next::Send(0);
        Elements { next, tokens: processes / 4 }
    }

    /// What process p asks for.
    fn request(&self, core: u32, p: u32) -> Call {
        match self.next[p as usize - 1] {
            Next::Send(value) => Call::Send { core, channel: p, value },
            Next::Receive if p == 1 => Call::Receive { core, channel: self.next.len() as u32 },
            Next::Receive => Call::Receive { core, channel: p - 1 },
        }
    }

    /// A token that came goes on with one added; after the last token process 1 receives as well.
    fn hear(&mut self, reply: &Reply) {
        let [p, _, value] = reply.words;
        match reply.number {
            GOT => self.next[p as usize - 1] = Next::Send(value.wrapping_add(1)),
            SENT if p == 1 && self.tokens > 1 => self.tokens -= 1,
            SENT => self.next[p as usize - 1] = Next::Receive,
            _ => {}
        }
    }
}
