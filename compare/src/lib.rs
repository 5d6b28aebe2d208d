//! The operations twice: a reference written from the customer's papers alone,
//! and the verified library behind its C boundary. Everything else here feeds
//! both with the same inputs and compares what they answer.

pub mod cabinet;
pub mod comparison;
pub mod inputs;
pub mod operations;
pub mod reference;
