//! What the mistakes in functions of floats share.

use oracle::harness::function::Function;
use oracle::harness::value::Value;
use std::fmt::Display;

const COUNT: u64 = 100_000;

/// What is found with `port` in the place of the port: the number of differences, and the smallest
/// failing input.
pub fn found<I, R>(function: Function<I, R>, port: fn(I) -> R) -> (u64, String)
where
    I: Copy + Ord + Display + Send + Sync,
    R: Value,
{
    let row = Function { port, ..function }.compare(1, 0, COUNT);
    let smallest = row.smallest().unwrap_or_default();
    (row.differences(), smallest.to_string())
}

/// Every mistake is found.
pub fn each_is_found<I, R>(function: fn() -> Function<I, R>, mistakes: &[fn(I) -> R])
where
    I: Copy + Ord + Display + Send + Sync,
    R: Value,
{
    for (index, &mistake) in mistakes.iter().enumerate() {
        let (differences, smallest) = found(function(), mistake);
        assert!(differences > 0, "mistake {index}");
        assert!(smallest.starts_with("bits 0x"), "mistake {index}");
    }
}

/// The port itself has no difference.
pub fn is_right<I, R>(function: fn() -> Function<I, R>)
where
    I: Copy + Ord + Display + Send + Sync,
    R: Value,
{
    let row = function().compare(1, 0, COUNT);
    assert!(row.cases() > COUNT);
    assert_eq!((row.differences(), row.smallest()), (0, None));
}
