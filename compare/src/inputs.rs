//! Networks, closures, tables, town files and stores of week lists to ask about, the same on
//! every machine.

pub mod closures;
pub mod damage;
pub mod examples;
pub mod grids;
pub mod networks;
mod random;
pub mod tables;
pub mod texts;
pub mod towns;
pub mod weeks;

pub use networks::OwnedNetwork;
pub use random::Random;
