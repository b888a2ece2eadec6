//! Instructions and times of one reader on one text, each taken in a process of its own.
use crate::readers::{Reader, Run};
use std::env;
use std::path::Path;
use std::process::{Command, Output};
use std::time::Instant;

/// So often a text is read for its times.
const READINGS: usize = 9;

/// What a process prints whose reader is refused.
const REFUSED: &str = "refused";

/// One reading: what it met.
pub fn once(mut run: Run) -> String {
    run().map_or(REFUSED.to_string(), |items| items.to_string())
}

/// Several readings: the first one's seconds and the best one's.
pub fn timed(mut run: Run) -> String {
    let mut times = [0.0; READINGS];
    for time in &mut times {
        let start = Instant::now();
        if run().is_none() {
            return REFUSED.to_string();
        }
        *time = start.elapsed().as_secs_f64();
    }
    format!("{:e} {:e}", times[0], times.iter().copied().fold(f64::INFINITY, f64::min))
}

/// How many items a reader met, and its instructions.
pub struct Instructions {
    pub items: u64,
    pub count: u64,
}

pub struct Times {
    pub first: f64,
    pub best: f64,
}

/// The instructions of one reading, inside the reader's own functions alone; none if it is refused.
pub fn instructions(reader: &Reader, file: &Path) -> Option<Instructions> {
    let mut command = Command::new("valgrind");
    command.args(["--tool=callgrind", "--callgrind-out-file=/dev/null"]);
    command.args(reader.inside.iter().map(|name| format!("--toggle-collect={name}")));
    let output = answer(command.arg(this()).args(["once", reader.name]).arg(file));
    let said = String::from_utf8_lossy(&output.stderr);
    let collected = said.lines().find_map(|line| line.split("Collected : ").nth(1)).expect("callgrind's count");
    Some(Instructions { items: figures(&output)?.next()? as u64, count: collected.trim().parse().expect("a count") })
}

/// The times of a reader; none if it is refused.
pub fn times(reader: &Reader, file: &Path) -> Option<Times> {
    let output = answer(Command::new(this()).args(["time", reader.name]).arg(file));
    let mut figures = figures(&output)?;
    Some(Times { first: figures.next()?, best: figures.next()? })
}

fn this() -> std::path::PathBuf {
    env::current_exe().expect("this program")
}

fn answer(command: &mut Command) -> Output {
    let output = command.output().expect("a process");
    assert!(output.status.success(), "{command:?}: {}", String::from_utf8_lossy(&output.stderr));
    output
}

/// The figures that a process printed; none if its reader is refused.
fn figures(output: &Output) -> Option<impl Iterator<Item = f64>> {
    let said = String::from_utf8_lossy(&output.stdout).trim().to_string();
    let parsed: Vec<f64> = said.split(' ').map_while(|word| word.parse().ok()).collect();
    (said != REFUSED).then_some(parsed.into_iter())
}
