//! The proved library held to the model, call by call: the answer, and every byte of the buffer. The model is written from
//! documents 01 and 02 alone, in ordinary Rust.
//!
//! What is drawn at random is drawn from a seed, which a failing test names; `SEED=n` runs that one alone.
mod causes;
mod damage;
mod lists;
mod log_limits;
mod lookup_limits;
mod pair;
mod questions;
mod rings;
mod table_limits;
mod tally;
