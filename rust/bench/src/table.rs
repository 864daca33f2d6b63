//! The tables of several runs.

use crate::sums::OVER;
use std::fs;

struct Round {
    library: f64,
    rust: f64,
}

/// What is timed, and the rounds of it in each run.
struct Row {
    what: String,
    runs: Vec<Vec<Round>>,
}

/// Prints a Markdown table of runs, each a file that `bench rounds` wrote: the median time of a call
/// of each side in the run that suited it best, the library's over Rust's, and between which ratios
/// four fifths of all rounds lie.
pub fn print(files: impl Iterator<Item = String>) {
    println!("| what | library ns | Rust ns | ratio | spread |");
    println!("|---|---:|---:|---:|---:|");
    for Row { what, runs } in rows(files) {
        let library = best(&runs, |round| round.library);
        let rust = best(&runs, |round| round.rust);
        let [low, _, high] = ratios(&runs);
        let ratio = library / rust;
        println!("| {what} | {library:.1} | {rust:.1} | {ratio:.2} | {low:.2} to {high:.2} |");
    }
}

/// Prints a Markdown table of runs, each a file that `bench sums` wrote. A row has the lengths that
/// differ in what is over: the median times of the first, and the ratios of each.
pub fn print_sums(files: impl Iterator<Item = String>) {
    println!("| what | library ns | Rust ns | ratio | +1 B | +2 B | +3 B |");
    println!("|---|---:|---:|---|---|---|---|");
    for lengths in rows(files).chunks(OVER) {
        let Row { what, runs } = &lengths[0];
        let what = what.strip_suffix(", +0").expect("the length as it is");
        let rounds = || runs.iter().flatten();
        let [_, library, _] = spread(rounds().map(|round| round.library));
        let [_, rust, _] = spread(rounds().map(|round| round.rust));
        print!("| {what} | {library:.1} | {rust:.1} |");
        for Row { runs, .. } in lengths {
            let [low, median, high] = ratios(runs);
            print!(" {median:.2} ({low:.2} to {high:.2}) |");
        }
        println!();
    }
}

/// The spread of the library's time over Rust's, round by round.
fn ratios(runs: &[Vec<Round>]) -> [f64; 3] {
    let rounds = runs.iter().flatten();
    spread(rounds.map(|round| round.library / round.rust))
}

/// The least of the runs' medians.
fn best(runs: &[Vec<Round>], time: impl Fn(&Round) -> f64) -> f64 {
    let median = |run: &Vec<Round>| {
        let [_, median, _] = spread(run.iter().map(&time));
        median
    };
    runs.iter().map(median).fold(f64::INFINITY, f64::min)
}

/// In the order in which they first come.
fn rows(files: impl Iterator<Item = String>) -> Vec<Row> {
    let mut rows: Vec<Row> = vec![];
    for (run, file) in files.enumerate() {
        let text = fs::read_to_string(&file).expect("the rounds can be read");
        for line in text.lines() {
            let (what, round) = parse(line).expect("a line of rounds");
            let row = row_of(&mut rows, what);
            row.runs.resize_with(run + 1, Vec::new);
            row.runs[run].push(round);
        }
    }
    rows
}

fn row_of<'a>(rows: &'a mut Vec<Row>, what: &str) -> &'a mut Row {
    let known = rows.iter().position(|row| row.what == what);
    let at = known.unwrap_or_else(|| {
        rows.push(Row {
            what: what.to_string(),
            runs: vec![],
        });
        rows.len() - 1
    });
    &mut rows[at]
}

fn parse(line: &str) -> Option<(&str, Round)> {
    let (what, times) = line.split_once('\t')?;
    let (library, rust) = times.split_once('\t')?;
    let round = Round {
        library: library.parse().ok()?,
        rust: rust.parse().ok()?,
    };
    Some((what, round))
}

/// What a tenth, half and nine tenths of the values are below: so one layout of four shows, but not
/// a few rounds in which the machine did something else.
fn spread(values: impl Iterator<Item = f64>) -> [f64; 3] {
    let mut values: Vec<f64> = values.collect();
    values.sort_by(f64::total_cmp);
    [1, 5, 9].map(|tenths| values[(values.len() - 1) * tenths / 10])
}
