//! What the program `play` does, in plain Rust: `plain_play RECEIVER LOG`.

use bench::baseline;
use bench::log::RECORD_SIZE;
use std::env;
use std::fs::{self, File};
use std::io::{self, BufReader, BufWriter, Read, Write};

const BUFFER: usize = 65_536;

fn main() -> io::Result<()> {
    let mut words = env::args_os().skip(1);
    let mut out = BufWriter::with_capacity(BUFFER, io::stdout().lock());
    let receiver = words.next().and_then(|path| fs::read(path).ok());
    let Some(&[a, b, c, d]) = receiver.as_deref() else {
        writeln!(out, "no receiver")?;
        return out.flush();
    };
    let us = u32::from_le_bytes([a, b, c, d]);
    if let Some(log) = words.next().and_then(|path| File::open(path).ok()) {
        play(us, &mut BufReader::with_capacity(BUFFER, log), &mut out)?;
    }
    out.flush()
}

/// Writes a line for each record.
fn play(us: u32, log: &mut impl Read, out: &mut impl Write) -> io::Result<()> {
    let (mut state, mut buffer, mut words) = ([0; 8], [0; 4096], [0; 5]);
    let mut record = [0; RECORD_SIZE];
    for number in 0.. {
        let length = fill(log, &mut record);
        if length == 0 {
            break;
        }
        let record = &record[..length];
        let answer = baseline::replay_record(&mut state, record, us, &mut buffer, &mut words);
        baseline::write_line(out, number, answer, &words)?;
    }
    Ok(())
}

/// Reads all of a record, or as much of it as there is.
fn fill(log: &mut impl Read, record: &mut [u8; RECORD_SIZE]) -> usize {
    let mut filled = 0;
    while let Ok(more @ 1..) = log.read(&mut record[filled..]) {
        filled += more;
    }
    filled
}
