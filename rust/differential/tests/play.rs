//! The program `play` against the reference, file by file, and the day that is kept with it.

use differential::logs::Log;
use differential::random::Random;
use differential::{cases, day, report};
use hoursquall::framelog::RECORD_SIZE;
use reference::replay;
use std::ffi::OsStr;
use std::io::Write;
use std::path::{Path, PathBuf};
use std::process::{Child, Command, Output, Stdio};
use std::{env, fs, process, thread};

/// How much of a log the program reads at once.
const INPUT: usize = 252 * RECORD_SIZE;

const RECEIVER: [u8; 4] = [11, 0, 0, 0];

/// A path from the top of the repository.
fn top(path: &str) -> PathBuf {
    Path::new(env!("CARGO_MANIFEST_DIR"))
        .join("../..")
        .join(path)
}

/// The program with these words behind its name.
fn program(words: &[&OsStr]) -> Command {
    let path = top("target/bin/play");
    assert!(
        path.is_file(),
        "target/bin/play is missing: `scripts/build.sh programs` builds it"
    );
    let mut command = Command::new(path);
    command.args(words);
    command
}

/// What it writes, if it ends well.
fn text(output: Output) -> Vec<u8> {
    assert!(output.status.success(), "{}", output.status);
    output.stdout
}

/// A folder for the files of one test, which goes with it.
struct Folder {
    path: PathBuf,
}

impl Folder {
    fn new(test: &str) -> Folder {
        let name = format!("hoursquall-play-{test}-{}", process::id());
        let path = env::temp_dir().join(name);
        fs::create_dir(&path).expect("a folder for the test");
        Folder { path }
    }

    /// Runs the program on files with these bytes. A file that is none is not there.
    fn play(&self, receiver: Option<&[u8]>, log: Option<&[u8]>) -> Vec<u8> {
        let receiver = self.file("receiver", receiver);
        let log = self.file("log", log);
        let output = program(&[receiver.as_ref(), log.as_ref()]).output();
        text(output.expect("it runs"))
    }

    fn file(&self, name: &str, bytes: Option<&[u8]>) -> PathBuf {
        let path = self.path.join(name);
        match bytes {
            Some(bytes) => fs::write(&path, bytes).expect("the file can be written"),
            None => drop(fs::remove_file(&path)), // it may not be there already
        }
        path
    }

    /// Runs the program on a log, and compares.
    fn check(&self, us: u32, log: &[u8]) {
        let receiver = us.to_le_bytes();
        let written = self.play(Some(&receiver), Some(log));
        let expected = replay::output(&receiver, log);
        let agree = written == expected;
        assert!(agree, "a log of {} bytes", log.len());
    }
}

impl Drop for Folder {
    fn drop(&mut self) {
        let _ = fs::remove_dir_all(&self.path);
    }
}

/// A log of that many bytes.
fn log_of(random: &mut Random, length: usize) -> Log {
    let mut log = Log::any(random, 8);
    while log.bytes.len() < length {
        let whole = log.bytes.len() / RECORD_SIZE * RECORD_SIZE;
        log.bytes.truncate(whole);
        log.bytes.extend(Log::any(random, 8).bytes);
    }
    log.bytes.truncate(length);
    log
}

/// Only a file of four bytes names a receiver, whatever the log is.
#[test]
fn no_receiver() {
    let folder = Folder::new("no-receiver");
    let log = log_of(&mut Random::new(170), 5 * RECORD_SIZE).bytes;
    let mut runs = 0;
    for log in [Some(&log[..]), Some(&[]), None] {
        for length in [0, 1, 2, 3, 5, 8, 256, 260, 70_000] {
            let receiver = vec![11; length];
            let expected = replay::output(&receiver, log.unwrap_or(&[]));
            assert_eq!(expected, b"no receiver\n");
            assert_eq!(folder.play(Some(&receiver), log), expected);
            runs += 1;
        }
        assert_eq!(folder.play(None, log), b"no receiver\n");
        runs += 1;
    }
    let log = folder.file("log", Some(&log));
    let output = program(&[folder.path.as_ref(), log.as_ref()]).output();
    assert_eq!(text(output.expect("it runs")), b"no receiver\n");
    report("play, no receiver", runs + 1);
}

/// A log that is not there, or can't be read, counts as empty.
#[test]
fn no_log() {
    let folder = Folder::new("no-log");
    assert_eq!(folder.play(Some(&RECEIVER), Some(&[])), b"");
    assert_eq!(folder.play(Some(&RECEIVER), None), b"");
    let receiver = folder.file("receiver", Some(&RECEIVER));
    let output = program(&[receiver.as_ref(), folder.path.as_ref()]).output();
    assert_eq!(text(output.expect("it runs")), b"");
    let output = program(&[receiver.as_ref(), "".as_ref()]).output();
    assert_eq!(text(output.expect("it runs")), b"");
    report("play, no log", 4);
}

/// A word that is missing names no file.
#[test]
fn missing_words() {
    let folder = Folder::new("missing-words");
    let output = program(&[]).output().expect("it runs");
    assert_eq!(text(output), replay::output(&[], &[]));
    let receiver = folder.file("receiver", Some(&RECEIVER));
    let output = program(&[receiver.as_ref()]).output().expect("it runs");
    assert_eq!(text(output), replay::output(&RECEIVER, &[]));
    report("play, missing words", 2);
}

/// An output that cannot be written is named on standard error, and nothing is claimed.
#[test]
fn failing_output() {
    let folder = Folder::new("failing-output");
    let receiver = folder.file("receiver", Some(&RECEIVER));
    let log = log_of(&mut Random::new(175), 300 * RECORD_SIZE).bytes;
    let log = folder.file("log", Some(&log));
    for words in [vec![receiver.as_ref(), log.as_ref()], vec![]] {
        let full = fs::File::create("/dev/full").expect("the device is there");
        let output = program(&words).stdout(full).output().expect("it runs");
        let said = String::from_utf8_lossy(&output.stderr);
        assert!(said.starts_with("standard output: "), "{said}");
        assert_eq!(said.lines().count(), 1, "{said}");
    }
    report("play, failing outputs", 2);
}

/// Lengths around that of a record, of what is read at once, and of several times that.
#[test]
fn lengths_of_logs() {
    let random = &mut Random::new(171);
    let folder = Folder::new("lengths");
    let around = |length: usize| [length - 1, length, length + 1];
    let mut lengths = vec![0, 1, 2, 4, 65_536, INPUT + RECORD_SIZE];
    for whole in [1, 2, 10, 251, 252, 253, 504, 505, 756, 1000] {
        lengths.extend(around(whole * RECORD_SIZE));
    }
    for &length in &lengths {
        let Log { us, bytes } = log_of(random, length);
        folder.check(us, &bytes);
    }
    report("play, lengths of logs", lengths.len());
}

/// Logs with every fault, for any receiver.
#[test]
fn logs() {
    let random = &mut Random::new(172);
    let folder = Folder::new("logs");
    let (count, mut records) = (cases(200), 0);
    for turn in 0..count {
        let messages = if turn % 10 == 0 { 80 } else { 8 };
        let Log { us, bytes } = Log::any(random, messages);
        folder.check(us, &bytes);
        records += bytes.len().div_ceil(RECORD_SIZE);
    }
    report("play, logs", count);
    report("play, logs, records", records);
}

/// Bytes that know nothing of anything.
#[test]
fn garbage() {
    let random = &mut Random::new(173);
    let folder = Folder::new("garbage");
    let count = cases(50);
    for _ in 0..count {
        let length = random.within(0..=2000);
        let (us, log) = (random.word(), random.bytes(length));
        folder.check(us, &log);
    }
    report("play, garbage", count);
}

/// A log that comes through a pipe, in parts that end anywhere: what is read at once is not all of
/// a record then, and yet none is short but the last.
#[test]
fn log_through_a_pipe() {
    let random = &mut Random::new(174);
    let folder = Folder::new("pipe");
    for length in [100, 5 * RECORD_SIZE, INPUT + 1, 3 * INPUT - 100] {
        let Log { us, bytes } = log_of(random, length);
        let receiver = folder.file("receiver", Some(&us.to_le_bytes()));
        let mut command = program(&[receiver.as_ref(), "/dev/stdin".as_ref()]);
        let child = command.stdin(Stdio::piped()).stdout(Stdio::piped()).spawn();
        let written = feed(random, child.expect("it runs"), &bytes);
        let agree = written == replay::lines(us, &bytes);
        assert!(agree, "a log of {length} bytes");
    }
    report("play, logs through a pipe", 4);
}

/// Writes bytes to a program, part by part, and answers what it wrote meanwhile.
fn feed(random: &mut Random, mut child: Child, bytes: &[u8]) -> Vec<u8> {
    let mut pipe = child.stdin.take().expect("a pipe");
    let (mut rest, mut parts) = (bytes, vec![]);
    while !rest.is_empty() {
        let length = random.pick_or_within(&[1, 259, 260, 261, 5000], 1..=20_000);
        let (part, behind) = rest.split_at(length.min(rest.len()));
        parts.push(part.to_vec());
        rest = behind;
    }
    let feeding = thread::spawn(move || {
        for part in parts {
            pipe.write_all(&part).expect("it reads all of it");
            thread::yield_now();
        }
    });
    let output = child.wait_with_output().expect("it ends");
    feeding.join().expect("all was written");
    text(output)
}

/// The files that are kept are those that [`day`] tells of, and what the program writes for them is
/// kept too.
#[test]
fn kept_day() {
    let kept = |path: &str| fs::read(top("crates/play").join(path)).expect(path);
    assert_eq!(kept("data/receiver"), day::RECEIVER);
    assert!(kept("data/log") == day::log(), "data/log");
    assert_eq!(kept("args"), b"receiver\nlog\n");
    let stored = String::from_utf8(kept("stdout")).expect("it is text");
    assert_eq!(stored.as_bytes(), day::lines());
    assert_eq!(stored.lines().nth(2), Some("2 delivered 16909060 5"));
    let mut command = program(&["receiver".as_ref(), "log".as_ref()]);
    let output = command.current_dir(top("crates/play/data")).output();
    assert_eq!(text(output.expect("it runs")), stored.as_bytes());
    report("play, lines of the kept day", stored.lines().count());
}

/// Each kind of line is in the kept day.
#[test]
fn every_line_of_the_kept_day() {
    let text = String::from_utf8(day::lines()).expect("it is text");
    let said: Vec<&str> = text.lines().filter_map(|l| l.split(' ').nth(1)).collect();
    let refusals = "1 3 4 5 6 7 8 9 10 50 51 52 53".split(' ');
    for kind in refusals.chain(["more", "delivered"]) {
        assert!(said.contains(&kind), "{kind}");
    }
    assert_eq!(said.last(), Some(&"50"));
    assert!(said.len() <= 40);
}
