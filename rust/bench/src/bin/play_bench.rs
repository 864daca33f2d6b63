//! Times two programs that play the same log, of 100 MB, and prints a Markdown table:
//! `play_bench PLAY PLAIN_PLAY`. `scripts/bench.sh` runs it.

use bench::log::{self, RECEIVER, RECORD_SIZE};
use std::fs::{self, File};
use std::io::{self, BufWriter, Write};
use std::path::{Path, PathBuf};
use std::process::{self, Command, Stdio};
use std::time::{Duration, Instant};
use std::{env, thread};

const RECORDS: usize = 100_000_000 / RECORD_SIZE;
const RUNS: usize = 9;

fn main() -> io::Result<()> {
    let programs: Vec<PathBuf> = env::args_os().skip(1).map(PathBuf::from).collect();
    let Ok([play, plain_play]) = <[PathBuf; 2]>::try_from(programs) else {
        eprintln!("usage: play_bench PLAY PLAIN_PLAY");
        process::exit(2);
    };
    for program in [&play, &plain_play] {
        if !program.is_file() {
            eprintln!("{} is missing", program.display());
            process::exit(1);
        }
    }
    let folder = Folder::new()?;
    folder.write_day()?;
    let mut both = [play, plain_play].map(Program::new);
    // The first turn brings the log into memory, and is not timed.
    for program in &mut both {
        program.resident = folder.resident(&program.path)?;
    }
    folder.compare(&both)?;
    for _ in 0..RUNS {
        for program in &mut both {
            let seconds = folder.seconds(&program.path)?;
            program.seconds = program.seconds.min(seconds);
        }
        folder.compare(&both)?;
    }
    print(&both);
    Ok(())
}

/// A program, and what is known of it.
struct Program {
    path: PathBuf,
    /// Those of its best run.
    seconds: f64,
    /// The largest resident set, in KiB.
    resident: u64,
}

impl Program {
    fn new(path: PathBuf) -> Program {
        Program {
            path,
            seconds: f64::INFINITY,
            resident: 0,
        }
    }

    fn name(&self) -> String {
        name(&self.path)
    }
}

fn name(program: &Path) -> String {
    let name = program.file_name().unwrap_or_default();
    name.display().to_string()
}

/// A folder for the log and the outputs, which goes with this.
struct Folder {
    path: PathBuf,
}

impl Folder {
    fn new() -> io::Result<Folder> {
        let name = format!("hoursquall-play-bench-{}", process::id());
        let path = env::temp_dir().join(name);
        fs::create_dir(&path)?;
        Ok(Folder { path })
    }

    fn write_day(&self) -> io::Result<()> {
        fs::write(self.path.join("receiver"), RECEIVER.to_le_bytes())?;
        let mut log = BufWriter::new(File::create(self.path.join("log"))?);
        log::write(&mut log, RECORDS)?;
        log.flush()
    }

    /// The seconds that a run takes.
    fn seconds(&self, program: &Path) -> io::Result<f64> {
        let mut command = self.command(program)?;
        let began = Instant::now();
        let status = command.status()?;
        let seconds = began.elapsed().as_secs_f64();
        assert!(status.success(), "{}: {status}", program.display());
        Ok(seconds)
    }

    /// The largest resident set of a run, as the system tells it while it lasts. (At the end it
    /// would be no less than what this program had when it began the run.)
    fn resident(&self, program: &Path) -> io::Result<u64> {
        let mut child = self.command(program)?.spawn()?;
        let told = format!("/proc/{}/status", child.id());
        let mut largest = 0;
        while child.try_wait()?.is_none() {
            let text = fs::read_to_string(&told).unwrap_or_default();
            largest = largest.max(largest_so_far(&text).unwrap_or(0));
            thread::sleep(Duration::from_millis(1));
        }
        Ok(largest)
    }

    /// A run whose output is a file of the program's name.
    fn command(&self, program: &Path) -> io::Result<Command> {
        let output = File::create(self.path.join(name(program)))?;
        let mut command = Command::new(program);
        command.args(["receiver", "log"].map(|file| self.path.join(file)));
        command.stdin(Stdio::null()).stdout(output);
        Ok(command)
    }

    /// Both wrote the same.
    fn compare(&self, programs: &[Program; 2]) -> io::Result<()> {
        let [first, second] = programs.each_ref().map(Program::name);
        let agree = fs::read(self.path.join(first))? == fs::read(self.path.join(second))?;
        assert!(agree, "the outputs differ");
        Ok(())
    }
}

impl Drop for Folder {
    fn drop(&mut self) {
        let _ = fs::remove_dir_all(&self.path);
    }
}

/// The largest resident set so far, from what `/proc` tells of a process.
fn largest_so_far(status: &str) -> Option<u64> {
    let line = status.lines().find(|line| line.starts_with("VmHWM:"))?;
    line.split_whitespace().nth(1)?.parse().ok()
}

/// The ratios are to the time of the last program.
fn print(programs: &[Program; 2]) {
    let megabytes = (RECORDS * RECORD_SIZE) as f64 / 1e6;
    println!("| play a log of {megabytes:.0} MB | s | MB/s | ratio | resident KiB |");
    println!("|---|---:|---:|---:|---:|");
    for program in programs {
        let (name, seconds, resident) = (program.name(), program.seconds, program.resident);
        let (speed, ratio) = (megabytes / seconds, seconds / programs[1].seconds);
        println!("| {name} | {seconds:.3} | {speed:.0} | {ratio:.2} | {resident} |");
    }
}
