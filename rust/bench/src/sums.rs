//! What change request Q-3 asks: the sums beside an optimised Rust loop that adds one byte or word at
//! a time, over the same bytes. The request's loops are [`baseline::sum8`] and [`baseline::sum32`],
//! in a crate of their own as all of Rust's side, so that they are not fitted to the lengths here.

use crate::pattern;
use crate::timing::print_rounds;
use bench::baseline;
use hoursquall::calls as library;
use std::fmt::Debug;
use std::hint::black_box;

const LENGTHS: [(&str, usize); 5] = [
    ("24 B", 24),
    ("200 B", 200),
    ("1 KiB", 1024),
    ("4 KiB", 4096),
    ("64 KiB", 65_536),
];

/// From the first byte of a cache line, and from the one behind it.
const PLACES: [(&str, usize); 2] = [("aligned", 0), ("odd", 1)];
const LINE: usize = 64;

/// Each length is summed as it is, and with one to three bytes over.
pub const OVER: usize = 4;

pub fn print_all_rounds() {
    print_rounds_of("sum8", library::sum8, baseline::sum8);
    print_rounds_of("sum32", library::sum32, baseline::sum32);
}

fn print_rounds_of<T: PartialEq + Debug>(
    name: &str,
    library: impl Fn(&[u8]) -> T,
    request: impl Fn(&[u8]) -> T,
) {
    let memory = pattern(65_536 + 2 * LINE);
    let line = memory.as_ptr().align_offset(LINE);
    for (size, length) in LENGTHS {
        for (place, start) in PLACES {
            for over in 0..OVER {
                let bytes = &memory[line + start..][..length + over];
                print_rounds(
                    &format!("{name}, {size}, {place}, +{over}"),
                    || library(black_box(bytes)),
                    || request(black_box(bytes)),
                );
            }
        }
    }
}
