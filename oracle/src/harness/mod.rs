//! What every comparison needs, whatever the operation: the words of a command line, random numbers,
//! lent buffers with margins, calls and what comes of them, tallies, simpler failing inputs, times, and
//! the stored form of a call.

pub mod args;
pub mod call;
pub mod changed;
pub mod function;
pub mod lent;
pub mod outcome;
pub mod rng;
pub mod run;
pub mod simpler;
pub mod stored;
pub mod tally;
pub mod timed_values;
pub mod timing;
pub mod value;
