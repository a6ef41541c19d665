//! The untouched Rust: acquisition with the norms of num-complex, which are `hypot`, in the place of
//! the requirement's.

use crate::complex::hypot::{C32, C64};

#[allow(clippy::duplicate_mod)]
#[path = "isdb/rx/acquire.rs"]
pub mod acquire;
