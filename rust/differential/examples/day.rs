//! Writes one of the files that `crates/play` keeps of the day to the standard output. From `rust/`:
//!
//! ```sh
//! cargo run --release --offline -p differential --example day receiver >../crates/play/data/receiver
//! cargo run --release --offline -p differential --example day log >../crates/play/data/log
//! cargo run --release --offline -p differential --example day stdout >../crates/play/stdout
//! ```

use differential::day;
use std::io::{self, Write};
use std::{env, process};

fn main() -> io::Result<()> {
    let bytes = match env::args().nth(1).as_deref() {
        Some("receiver") => day::RECEIVER.to_vec(),
        Some("log") => day::log(),
        Some("stdout") => day::lines(),
        _ => {
            eprintln!("usage: day receiver | log | stdout");
            process::exit(2);
        }
    };
    io::stdout().write_all(&bytes)
}
