//! The library behind the model's trait of calls; there only where the archive is linked.

use crate::lent::Edge;
use crate::model::Machine;

/// Whether the library is linked into this program.
pub const LINKED: bool = cfg!(linked);

/// The library as a machine, where it is linked; its lists lie against this edge.
#[cfg(linked)]
pub fn open(edge: Edge) -> Option<Box<dyn Machine>> {
    Some(Box::new(linked::Library::new(edge)))
}

/// The library as a machine: it isn't linked.
#[cfg(not(linked))]
pub fn open(_edge: Edge) -> Option<Box<dyn Machine>> {
    None
}

#[cfg(linked)]
mod linked {
    use crate::lent::{Edge, Lent};
    use crate::model::{Action, Call, Machine, Number};

    extern "C" {
        fn fontarisca_set_up(
            cores: u32,
            processes: u32,
            channels: u32,
            pairs: *const u32,
            pairs_length: usize,
            table: *mut u32,
            table_length: usize,
        ) -> u32;
        fn fontarisca_send(
            table: *mut u32,
            table_length: usize,
            answer: *mut u32,
            answer_length: usize,
            core: u32,
            channel: u32,
            value: u32,
        ) -> u32;
        fn fontarisca_receive(
            table: *mut u32,
            table_length: usize,
            answer: *mut u32,
            answer_length: usize,
            core: u32,
            channel: u32,
        ) -> u32;
        fn fontarisca_choose(
            table: *mut u32,
            table_length: usize,
            answer: *mut u32,
            answer_length: usize,
            core: u32,
            guards: *const u32,
            guards_length: usize,
        ) -> u32;
        fn fontarisca_yield(
            table: *mut u32,
            table_length: usize,
            answer: *mut u32,
            answer_length: usize,
            core: u32,
        ) -> u32;
        fn fontarisca_end(
            table: *mut u32,
            table_length: usize,
            answer: *mut u32,
            answer_length: usize,
            core: u32,
        ) -> u32;
        fn fontarisca_step(
            table: *mut u32,
            table_length: usize,
            answer: *mut u32,
            answer_length: usize,
            core: u32,
        ) -> u32;
    }

    /// The library, with memory for the lists that it is lent.
    pub struct Library {
        list: Lent,
    }

    impl Library {
        /// The library; its lists lie against this edge.
        pub fn new(edge: Edge) -> Library {
            Library { list: Lent::new(edge) }
        }
    }

    impl Machine for Library {
        fn call(&mut self, table: &mut [u32], answer: &mut [u32], call: &Call) -> Number {
            match call {
                Call::SetUp(wiring) => {
                    let pairs = self.list.copy_of(&wiring.pairs);
                    set_up(wiring.cores, wiring.processes, wiring.channels, pairs, table)
                }
                Call::Act { core, action } => match action {
                    Action::Send { channel, value } => send(table, answer, *core, *channel, *value),
                    Action::Receive { channel } => receive(table, answer, *core, *channel),
                    Action::Choose { guards } => choose(table, answer, *core, self.list.copy_of(guards)),
                    Action::Yield => give_way(table, answer, *core),
                    Action::End => end(table, answer, *core),
                    Action::Step => step(table, answer, *core),
                },
            }
        }
    }

    fn set_up(cores: u32, processes: u32, channels: u32, pairs: &[u32], table: &mut [u32]) -> u32 {
        let (list, room) = (pairs.len(), table.len());
        // SAFETY: the pointers are of slices with these lengths, which outlive the call.
        unsafe { fontarisca_set_up(cores, processes, channels, pairs.as_ptr(), list, table.as_mut_ptr(), room) }
    }

    fn send(table: &mut [u32], answer: &mut [u32], core: u32, channel: u32, value: u32) -> u32 {
        let (room, words) = (table.len(), answer.len());
        // SAFETY: the pointers are of slices with these lengths, which outlive the call.
        unsafe { fontarisca_send(table.as_mut_ptr(), room, answer.as_mut_ptr(), words, core, channel, value) }
    }

    fn receive(table: &mut [u32], answer: &mut [u32], core: u32, channel: u32) -> u32 {
        let (room, words) = (table.len(), answer.len());
        // SAFETY: the pointers are of slices with these lengths, which outlive the call.
        unsafe { fontarisca_receive(table.as_mut_ptr(), room, answer.as_mut_ptr(), words, core, channel) }
    }

    fn choose(table: &mut [u32], answer: &mut [u32], core: u32, guards: &[u32]) -> u32 {
        let (room, words, list) = (table.len(), answer.len(), guards.len());
        // SAFETY: the pointers are of slices with these lengths, which outlive the call.
        unsafe { fontarisca_choose(table.as_mut_ptr(), room, answer.as_mut_ptr(), words, core, guards.as_ptr(), list) }
    }

    fn give_way(table: &mut [u32], answer: &mut [u32], core: u32) -> u32 {
        let (room, words) = (table.len(), answer.len());
        // SAFETY: the pointers are of slices with these lengths, which outlive the call.
        unsafe { fontarisca_yield(table.as_mut_ptr(), room, answer.as_mut_ptr(), words, core) }
    }

    fn end(table: &mut [u32], answer: &mut [u32], core: u32) -> u32 {
        let (room, words) = (table.len(), answer.len());
        // SAFETY: the pointers are of slices with these lengths, which outlive the call.
        unsafe { fontarisca_end(table.as_mut_ptr(), room, answer.as_mut_ptr(), words, core) }
    }

    fn step(table: &mut [u32], answer: &mut [u32], core: u32) -> u32 {
        let (room, words) = (table.len(), answer.len());
        // SAFETY: the pointers are of slices with these lengths, which outlive the call.
        unsafe { fontarisca_step(table.as_mut_ptr(), room, answer.as_mut_ptr(), words, core) }
    }
}
