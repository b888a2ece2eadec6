//! The comparison at scale: `judge --scale [--share N] [--jobs N] [--from N]` runs this program again and again, a batch of texts each
//! time, since the Rust keeps every name that it has read. Each batch draws its texts from a seed of its own.
//!
//! --share    one in N of the random texts, no more than one in N of a batch of a family that lists, no text of 4 GiB: for a quick look
//! --jobs     so many processes at a time (1)
//! --from     leaves out the batches before the N-th: a run that was stopped goes on
//!
//! Standard error has a line of progress, standard output a line for each family and the sum. At the end stand the differences that were
//! met; one that docs/DIFFERENCES.md does not list makes the exit status non-zero, as does any other difference.
use crate::tally::Count;
use std::io::{self, IsTerminal, Write};
use std::process::{Command, ExitCode, Stdio};
use std::sync::Mutex;
use std::time::Instant;
use std::{env, fs, thread};

/// The texts of one family, compared by one part; without a family all that the part has.
struct Job {
    part: &'static str,
    family: Option<&'static str>,
    /// How many texts, of a random family.
    texts: u64,
}

/// So many texts of a random family are compared by one process.
const BATCH: u64 = 250_000;

const fn all(part: &'static str) -> Job {
    Job { part, family: None, texts: 0 }
}

const fn listed(part: &'static str, family: &'static str) -> Job {
    Job { part, family: Some(family), texts: 0 }
}

const fn drawn(part: &'static str, family: &'static str, texts: u64) -> Job {
    Job { part, family: Some(family), texts }
}

/// Eleven million random texts for the whole-text call, and ten for the number call.
const JOBS: &[Job] = &[
    all("examples"),
    all("edges"),
    all("differences"),
    all("huge"),
    all("chars"),
    drawn("chars", "plans", 500_000),
    drawn("chars", "damaged", 500_000),
    drawn("chars", "bad", 500_000),
    listed("lexer", "short"),
    listed("lexer", "escapes"),
    listed("lexer", "hashes"),
    listed("lexer", "digits"),
    listed("lexer", "characters"),
    listed("lexer", "here"),
    listed("lexer", "comments"),
    listed("lexer", "brackets"),
    listed("lexer", "numbers"),
    listed("lexer", "long"),
    drawn("lexer", "reals", 1_000_000),
    drawn("lexer", "nests", 1_000_000),
    drawn("lexer", "delimiters", 100_000),
    drawn("lexer", "plans", 3_500_000),
    drawn("lexer", "damaged", 3_500_000),
    drawn("lexer", "bad", 2_000_000),
    listed("fields", "short"),
    drawn("fields", "plans", 250_000),
    drawn("fields", "damaged", 250_000),
    drawn("fields", "bad", 250_000),
    listed("pieces", "short"),
    listed("pieces", "escapes"),
    listed("pieces", "hashes"),
    listed("pieces", "digits"),
    listed("pieces", "characters"),
    listed("pieces", "here"),
    listed("pieces", "comments"),
    listed("pieces", "brackets"),
    listed("pieces", "long"),
    drawn("pieces", "reals", 250_000),
    drawn("pieces", "nests", 250_000),
    drawn("pieces", "delimiters", 25_000),
    drawn("pieces", "plans", 750_000),
    drawn("pieces", "damaged", 750_000),
    drawn("pieces", "bad", 750_000),
    all("coverage"),
    drawn("coverage", "plans", 500_000),
    drawn("coverage", "damaged", 500_000),
    drawn("coverage", "bad", 500_000),
    listed("writing", "short"),
    listed("writing", "escapes"),
    listed("writing", "hashes"),
    listed("writing", "digits"),
    listed("writing", "characters"),
    listed("writing", "here"),
    listed("writing", "comments"),
    listed("writing", "brackets"),
    listed("writing", "numbers"),
    listed("writing", "bytes"),
    listed("writing", "long"),
    drawn("writing", "reals", 500_000),
    drawn("writing", "nests", 250_000),
    drawn("writing", "plans", 1_000_000),
    drawn("writing", "damaged", 1_000_000),
    drawn("writing", "bad", 250_000),
    listed("numbers", "numbers"),
    listed("numbers", "short"),
    listed("numbers", "long"),
    drawn("numbers", "reals", 8_000_000),
    drawn("numbers", "plans", 1_000_000),
    drawn("numbers", "bad", 1_000_000),
];

/// What is asked for.
struct Scale {
    share: u64,
    jobs: u64,
    from: u64,
}

/// None if a word is unknown.
pub fn run(words: &[String]) -> Option<ExitCode> {
    let mut scale = Scale { share: 1, jobs: 1, from: 1 };
    for pair in words.chunks(2) {
        let [name, number] = pair else { return None };
        let number: u64 = number.parse().ok().filter(|&number| number > 0)?;
        match name.as_str() {
            "--share" => scale.share = number,
            "--jobs" => scale.jobs = number,
            "--from" => scale.from = number,
            _ => return None,
        }
    }
    Some(scale.run())
}

/// One process: the job that it serves, its words, and how many texts it draws.
struct Batch {
    job: usize,
    words: Vec<String>,
}

impl Scale {
    fn run(&self) -> ExitCode {
        let all = JOBS.iter().enumerate().flat_map(|(at, job)| self.batches(at, job));
        let batches: Vec<Batch> = all.skip(usize::try_from(self.from - 1).expect("a count")).collect();
        let progress = Mutex::new(Progress::new(&batches));
        thread::scope(|scope| {
            for _ in 0..self.jobs {
                scope.spawn(|| {
                    while let Some(batch) = take(&progress, &batches) {
                        let count = batch.run();
                        progress.lock().expect("no panic").finish(batch, count);
                    }
                });
            }
        });
        progress.into_inner().expect("no panic").sum()
    }

    fn batches(&self, at: usize, job: &Job) -> Vec<Batch> {
        let mut words = Vec::new();
        if let Some(family) = job.family {
            words.extend(["--family".to_string(), family.to_string()]);
        }
        if self.share == 1 {
            words.push("--huge".to_string());
        } else if job.texts == 0 {
            words.extend(["--limit".to_string(), (BATCH / self.share).to_string()]);
        }
        words.push(job.part.to_string());
        let texts = job.texts / self.share;
        let batch = |(seed, count): (u64, u64)| {
            let drawn = ["--seed".to_string(), seed.to_string(), "--count".to_string(), count.to_string()];
            Batch { job: at, words: drawn.into_iter().chain(words.clone()).collect() }
        };
        let counts = (0..texts.div_ceil(BATCH).max(1)).map(|seed| (seed, (texts - seed * BATCH).min(BATCH)));
        counts.map(batch).collect()
    }
}

impl Batch {
    /// Runs the process, hands on the differences that it prints, and answers its last line.
    fn run(&self) -> Count {
        let program = env::current_exe().expect("this program");
        let output = Command::new(program).args(&self.words).stderr(Stdio::inherit()).output().expect("a process");
        let said = String::from_utf8_lossy(&output.stdout);
        let lines: Vec<&str> = said.lines().collect();
        let Some((Ok(count), before)) = lines.split_last().map(|(last, before)| (last.parse::<Count>(), before)) else {
            println!("{:?} ended by {}: {said}", self.words, output.status);
            return Count { failed: 1, ..Count::default() };
        };
        if count.failed > 0 {
            println!("{:?}\n{}", self.words, before.join("\n"));
        }
        count
    }
}

/// The next batch that no thread has taken.
fn take<'a>(progress: &Mutex<Progress>, batches: &'a [Batch]) -> Option<&'a Batch> {
    let mut progress = progress.lock().expect("no panic");
    let batch = batches.get(progress.taken)?;
    progress.taken += 1;
    Some(batch)
}

/// What was found so far.
struct Progress {
    taken: usize,
    finished: usize,
    batches: usize,
    /// By job: how many batches are left, and what the others found.
    jobs: Vec<(usize, Count)>,
    total: Count,
    start: Instant,
}

impl Progress {
    fn new(batches: &[Batch]) -> Self {
        let left = |job| batches.iter().filter(|batch| batch.job == job).count();
        let jobs = (0..JOBS.len()).map(|job| (left(job), Count::default())).collect();
        Progress { taken: 0, finished: 0, batches: batches.len(), jobs, total: Count::default(), start: Instant::now() }
    }

    fn finish(&mut self, batch: &Batch, count: Count) {
        self.finished += 1;
        self.total.add(count.clone());
        let (left, found) = &mut self.jobs[batch.job];
        *left -= 1;
        found.add(count);
        if *left == 0 {
            let Job { part, family, .. } = JOBS[batch.job];
            println!("{part:11} {:9} {found}", family.unwrap_or("all"));
        }
        self.show();
    }

    /// The line of progress; a terminal has one and the same.
    fn show(&self) {
        let Count { texts, compared, different, .. } = self.total;
        let seconds = self.start.elapsed().as_secs();
        let mut out = io::stderr();
        let end = if out.is_terminal() && self.finished < self.batches { '\r' } else { '\n' };
        let line = format!("{} of {} batches, {texts} texts, {compared} compared", self.finished, self.batches);
        // Progress that cannot be shown is no reason to stop.
        let _ = write!(out, "{line}, {different} different, {seconds} s{end}");
    }

    /// The sum, and the differences that were met.
    fn sum(self) -> ExitCode {
        let seconds = self.start.elapsed().as_secs();
        let unlisted: Vec<&String> = self.total.known.keys().filter(|name| !is_listed(name)).collect();
        println!("all in {seconds} s: {}", self.total);
        let met: Vec<String> = self.total.known.iter().map(|(name, times)| format!("{name} {times} times")).collect();
        println!("differences met: {}; not in docs/DIFFERENCES.md: {}", met.join(", "), unlisted.len());
        if self.total.failed == 0 && unlisted.is_empty() {
            ExitCode::SUCCESS
        } else {
            ExitCode::FAILURE
        }
    }
}

/// Whether docs/DIFFERENCES.md has a row for a difference.
fn is_listed(name: &str) -> bool {
    const LIST: &str = concat!(env!("CARGO_MANIFEST_DIR"), "/../../docs/DIFFERENCES.md");
    fs::read_to_string(LIST).is_ok_and(|list| list.contains(&format!("\n| {name} |")))
}
