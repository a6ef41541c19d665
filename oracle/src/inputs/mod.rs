//! What calls are made of: arguments around their boundaries, layouts, captures, partly silent ones,
//! samples, floats, pairs for the angle, changes of a capture, questions; whole captures that are
//! stored; and what is timed.

pub mod angles;
pub mod arguments;
pub mod captures;
pub mod changes;
pub mod floats;
pub mod layouts;
pub mod partly_silent;
pub mod questions;
pub mod samples;
pub mod timed;
pub mod timed_floats;
pub mod timed_layouts;
pub mod whole;
