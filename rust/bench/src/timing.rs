//! Times two functions that answer the same, round by round.

use std::fmt::Debug;
use std::hint::black_box;
use std::time::{Duration, Instant};

const ROUNDS: usize = 15;
const BATCH: Duration = Duration::from_millis(1);
const WARM_UP: Duration = Duration::from_millis(200);

/// Keeps the processor busy until its clock has settled, so that the first row is timed as the others.
pub fn warm_up() {
    let began = Instant::now();
    while began.elapsed() < WARM_UP {
        black_box(began);
    }
}

/// Prints a line for each round: what is timed, and the nanoseconds of a call of each, parted by
/// tabs. In each round both are timed, in turn the one and the other first, so that what slows the
/// machine for a while slows both.
pub fn print_rounds<T, L, R>(what: &str, mut library: L, mut rust: R)
where
    T: PartialEq + Debug,
    L: FnMut() -> T,
    R: FnMut() -> T,
{
    assert_eq!(library(), rust(), "{what}: the answers differ");
    let library_calls = calls_in_batch(&mut library);
    let rust_calls = calls_in_batch(&mut rust);
    for round in 0..ROUNDS {
        let (library_time, rust_time);
        if round % 2 == 0 {
            library_time = nanoseconds(&mut library, library_calls);
            rust_time = nanoseconds(&mut rust, rust_calls);
        } else {
            rust_time = nanoseconds(&mut rust, rust_calls);
            library_time = nanoseconds(&mut library, library_calls);
        }
        println!("{what}\t{library_time}\t{rust_time}");
    }
}

/// How many calls take about as long as a batch should.
fn calls_in_batch<T>(function: &mut impl FnMut() -> T) -> u32 {
    let mut calls = 1;
    while time(function, calls) < BATCH / 2 {
        calls *= 2;
    }
    calls
}

fn nanoseconds<T>(function: &mut impl FnMut() -> T, calls: u32) -> f64 {
    time(function, calls).as_nanos() as f64 / f64::from(calls)
}

fn time<T>(function: &mut impl FnMut() -> T, calls: u32) -> Duration {
    let began = Instant::now();
    for _ in 0..calls {
        black_box(function());
    }
    began.elapsed()
}
