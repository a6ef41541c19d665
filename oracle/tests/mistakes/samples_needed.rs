//! Mistakes in the samples needed.

use crate::is_found_at_boundary;
use oracle::acquire::Oracle;
use oracle::ops::samples_needed::{NeededCall, answer, write};

#[test]
fn refusals_out_of_order_are_found() {
    is_found_at_boundary::<NeededCall>("10 before 9", |modes, guards, symbols, samples| {
        let answer = answer::<Oracle>(modes, guards, symbols);
        let early = answer == Err(9) && symbols > 64;
        let answer = if early { Err(10) } else { answer };
        write(answer, samples)
    });
}
