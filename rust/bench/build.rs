//! Hands on how far the code is moved: `BENCH_PAD`, in bytes.

use std::env;

fn main() {
    let pad = env::var("BENCH_PAD").unwrap_or_else(|_| "0".to_string());
    println!("cargo:rerun-if-env-changed=BENCH_PAD");
    println!("cargo:rustc-env=BENCH_PAD={pad}");
}
