//! An independent model of Fontarisca, and the checks of the library against it.

pub mod compare;
pub mod damage;
pub mod generate;
pub mod lent;
pub mod library;
pub mod model;
pub mod mutants;
pub mod order;
pub mod plain;
pub mod random;
pub mod script;
