//! The numbers returned.

/// A number that a call returns.
pub type Number = u32;

pub const BUILT: Number = 0;
pub const TAKEN: Number = 1;
pub const MOVED: Number = 2;
pub const SLEPT: Number = 3;
pub const IDLE: Number = 4;
pub const GO: Number = 5;
pub const SENT: Number = 6;
pub const GOT: Number = 7;
pub const CHOSE: Number = 8;
pub const SIZE: Number = 20;
pub const PAIRS: Number = 21;
pub const ROOM: Number = 22;
pub const NAME: Number = 23;
pub const SELF: Number = 24;
pub const ANSWER: Number = 25;
pub const DAMAGED: Number = 26;
pub const CORE: Number = 27;
pub const BUSY: Number = 28;
pub const AWAITED: Number = 29;
pub const GUARDS: Number = 30;
pub const CHANNEL: Number = 31;
pub const OTHER_END: Number = 32;
pub const TWICE: Number = 33;
pub const FAULT: Number = 34;

/// The first number that is a refusal.
pub const FIRST_REFUSAL: Number = 20;

/// Every number with its name.
pub const ALL: [(Number, &str); 24] = [
    (BUILT, "BUILT"),
    (TAKEN, "TAKEN"),
    (MOVED, "MOVED"),
    (SLEPT, "SLEPT"),
    (IDLE, "IDLE"),
    (GO, "GO"),
    (SENT, "SENT"),
    (GOT, "GOT"),
    (CHOSE, "CHOSE"),
    (SIZE, "SIZE"),
    (PAIRS, "PAIRS"),
    (ROOM, "ROOM"),
    (NAME, "NAME"),
    (SELF, "SELF"),
    (ANSWER, "ANSWER"),
    (DAMAGED, "DAMAGED"),
    (CORE, "CORE"),
    (BUSY, "BUSY"),
    (AWAITED, "AWAITED"),
    (GUARDS, "GUARDS"),
    (CHANNEL, "CHANNEL"),
    (OTHER_END, "OTHER_END"),
    (TWICE, "TWICE"),
    (FAULT, "FAULT"),
];

/// The name of a number, for people.
pub fn name(number: Number) -> String {
    let known = ALL.iter().find(|(value, _)| *value == number);
    known.map_or_else(|| format!("number {number}"), |(_, name)| name.to_string())
}
