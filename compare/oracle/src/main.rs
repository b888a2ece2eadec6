//! `oracle [--report] [--skip] [--number] [--framed]` prints what the Rust reads standard input as: a line for each item,
//! with its record's words, its text in hex (`-` for none, else behind an `x`) and a number's parts; then `end` and the count.
//!
//! --report   with report mode's lines changed (steel_report/lexer.diff): an aid, not the Rust's own word
//! --skip     comments are skipped
//! --number   the number call instead, on the whole text: the number's parts, `no number`, or error 8 as `108`
//! --framed   input is many texts, each behind its length (four bytes, the lowest first), as `gen` writes them
use item::Reading;
use std::io::{self, BufWriter, Read, Write};
use std::{env, panic, process, thread};
use steel::NumberAnswer;

/// The Rust calls itself for every comment that it skips (difference A4): enough stack for a few million in a row.
const STACK: usize = 1 << 30;

struct Options {
    report: bool,
    skip: bool,
    number: bool,
    framed: bool,
}

fn main() {
    let mut options = Options { report: false, skip: false, number: false, framed: false };
    for word in env::args().skip(1) {
        match word.as_str() {
            "--report" => options.report = true,
            "--skip" => options.skip = true,
            "--number" => options.number = true,
            "--framed" => options.framed = true,
            _ => {
                eprintln!("usage: oracle [--report] [--skip] [--number] [--framed] < TEXT");
                process::exit(2);
            }
        }
    }
    let worker = thread::Builder::new().stack_size(STACK).spawn(move || print_all(&options));
    if let Err(error) = worker.expect("a thread").join().expect("no panic") {
        eprintln!("oracle: {error}");
        process::exit(1);
    }
}

fn print_all(options: &Options) -> io::Result<()> {
    let mut input = io::stdin().lock();
    let mut out = BufWriter::new(io::stdout().lock());
    if options.framed {
        while let Some(text) = gen::read_frame(&mut input)? {
            print_one(options, &text, &mut out)?;
        }
    } else {
        let mut text = Vec::new();
        input.read_to_end(&mut text)?;
        print_one(options, &text, &mut out)?;
    }
    out.flush()
}

fn print_one(options: &Options, text: &[u8], out: &mut impl Write) -> io::Result<()> {
    let source = match std::str::from_utf8(text) {
        Ok(source) => source,
        Err(error) => return writeln!(out, "refused 21 {}", error.valid_up_to()),
    };
    let answer = panic::catch_unwind(|| if options.number { number(source) } else { items(options, source) });
    writeln!(out, "{}", answer.as_deref().unwrap_or("panic"))
}

fn items(options: &Options, text: &str) -> String {
    let read = if options.report { steel_report::read } else { steel::read };
    let mut reading = Reading::default();
    read(text, options.skip, &mut reading);
    format!("{}end {}", reading.lines(text.as_bytes()), reading.items.len())
}

fn number(text: &str) -> String {
    match steel::number(text) {
        NumberAnswer::Is(number) => number.to_string(),
        NumberAnswer::NoNumber => "no number".into(),
        NumberAnswer::ZeroDenominator => "108".into(),
    }
}
