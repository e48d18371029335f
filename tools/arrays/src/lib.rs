//! The arrays by value on the way of a read, from the sources.

mod code;
pub mod program;
pub mod search;
mod sizes;
mod tokens;
