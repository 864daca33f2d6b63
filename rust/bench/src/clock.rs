//! How fast the processor runs, so that times can be read as cycles.

use std::arch::asm;
use std::time::Instant;

const TURNS: u64 = 50_000_000;

/// From a chain of additions, each of which waits a cycle for the one before it; eight in a turn, so
/// that the loop adds nothing. What is added stands in a register, since some processors add a
/// constant in no time. The best of five runs: other work only slows them.
pub fn gigahertz() -> f64 {
    let run = |_| {
        let began = Instant::now();
        additions(TURNS);
        (8 * TURNS) as f64 / began.elapsed().as_nanos() as f64
    };
    (0..5).map(run).fold(0.0, f64::max)
}

fn additions(turns: u64) {
    // SAFETY: the loop changes two registers of its own, and no memory.
    unsafe {
        asm!(
            "2:",
            ".rept 8",
            "add {sum}, {one}",
            ".endr",
            "dec {left}",
            "jnz 2b",
            sum = inout(reg) 0u64 => _,
            one = in(reg) 1u64,
            left = inout(reg) turns => _,
            options(nomem, nostack),
        );
    }
}
