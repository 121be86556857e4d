//! Seeded random cases, valid and damaged, on which an implementation of the papers (a [`Board`])
//! is compared with the reference: replies, lines, lengths, counts and every word or byte of the lent
//! buffers, and those around them. Every accepted table of theirs is written out and read again, and
//! every choice that is picked is stepped.

pub mod board;
pub mod choices;
pub mod counts;
pub mod damage;
pub mod layout;
pub mod lent;
pub mod lines;
pub mod picked;
pub mod picks;
pub mod rng;
pub mod suite;
pub mod tables;
pub mod texts;
pub mod ways;

pub use board::Board;
pub use counts::Counts;
pub use suite::{compare, Failure, Plan};
