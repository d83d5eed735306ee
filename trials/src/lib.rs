//! The independent side: a store by docs/RULES.md alone, and what compares the proved store with it.

pub mod antt;
pub mod batch;
pub mod call;
pub mod compare;
pub mod console;
pub mod damage;
#[cfg(test)]
mod faults;
pub mod gate;
pub mod journal;
pub mod language;
pub mod layout;
pub mod poke;
pub mod programs;
pub mod random;
pub mod rebuild;
pub mod rng;
pub mod script;
pub mod shrink;
pub mod store;
pub mod trial;
pub mod whiteboard;
pub mod workload;
