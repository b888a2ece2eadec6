//! The listed differences between document 01 and the Rust (docs/DIFFERENCES.md), each met here on its smallest input, so that the
//! list stays true, and the rules by which a comparison knows them.
use crate::tally::{shown, Count, Tally};
use crate::Options;
use item::{Int, Number, Reading, Real};
use std::os::unix::process::ExitStatusExt;
use std::panic;
use std::process::{Command, ExitCode, Stdio};
use std::thread;
use steel::NumberAnswer;

/// What the Rust's number call does with a text.
#[derive(Clone, Debug, PartialEq)]
pub enum Called {
    Answered(NumberAnswer),
    Panicked,
}

pub fn rust_number(text: &str) -> Called {
    panic::catch_unwind(|| steel::number(text)).map_or(Called::Panicked, Called::Answered)
}

/// The listed difference that explains why the Rust's number call says `rust` of a text where 01 says "no number"; none if no
/// difference is listed for it.
///
/// A1: its library takes `_` among an integer's digits. A2: it panics where a character of several bytes stands before a `/`.
pub fn listed(text: &str, rust: &Called) -> Option<&'static str> {
    match rust {
        Called::Answered(NumberAnswer::NoNumber) => None,
        Called::Answered(_) => text.contains('_').then_some("A1"),
        Called::Panicked => {
            let slash = text.rfind('/')?;
            (!text[..slash].is_ascii()).then_some("A2")
        }
    }
}

pub fn judge(options: &Options) -> Count {
    let mut count = Count::default();
    count.add(smallest());
    count.add(skipped_comments());
    if options.huge {
        count.add(wrapped_places());
    }
    count
}

/// The Rust against what the list says of it.
const SIDES: [&str; 2] = ["the Rust", "listed"];

/// A1, A2 and A5 on the texts that the list gives.
fn smallest() -> Count {
    let mut tally = Tally::between(SIDES, "differences A1, A2, A5");
    let big = |value: u32| Called::Answered(NumberAnswer::Is(Number::Real(Real::Int(Int::Big(value.into())))));
    let table = [
        ("1_", big(1), "A1"),
        ("1_0", big(10), "A1"),
        ("#x1_f", big(0x1f), "A1"),
        ("1/0_0", Called::Answered(NumberAnswer::ZeroDenominator), "A1"),
        ("é/", Called::Panicked, "A2"),
        ("1@é/2", Called::Panicked, "A2"),
        ("#xé/1", Called::Panicked, "A2"),
    ];
    for (text, said, name) in table {
        let rust = rust_number(text);
        let known = listed(text, &rust);
        tally.same((rust, known), (said, Some(name)), || shown(text.as_bytes()));
        tally.know(name);
    }
    for text in ["0.0 -0.0", "-0.0 0.0"] {
        let zeros = steel::read(text, false, &mut Reading::default());
        tally.same(zeros, 1, || shown(text.as_bytes()));
        tally.know("A5");
    }
    tally.close()
}

/// The word by which this program is called again to meet A4, which ends a process.
pub const STACK_PROBE: &str = "--probe-stack";

/// More comments in a row than the usual stack holds calls, by whatever compiler.
const COMMENTS: usize = 1 << 20;
const USUAL_STACK: usize = 8 << 20;

/// The signal that ends a Rust process whose stack overflows. Of a call that is a function's last act the compiler makes a jump on Arm, and
/// the process ends well.
const ABORTED: Option<i32> = if cfg!(target_arch = "aarch64") { None } else { Some(6) };

/// A4: the Rust skips a comment by a call to itself, so that enough of them in a row end the process.
fn skipped_comments() -> Count {
    let mut tally = Tally::between(SIDES, "differences A4");
    let program = std::env::current_exe().expect("this program");
    let status = Command::new(program).arg(STACK_PROBE).stderr(Stdio::null()).status().expect("a process");
    let ended = (status.success(), status.signal());
    tally.same(ended, (ABORTED.is_none(), ABORTED), || format!("{COMMENTS} comments in a row, skipped"));
    if ABORTED.is_some() {
        tally.know("A4");
    }
    tally.close()
}

pub fn probe_stack() -> ExitCode {
    let read = || {
        steel::read(&";\n".repeat(COMMENTS), true, &mut Reading::default());
    };
    let worker = thread::Builder::new().stack_size(USUAL_STACK).spawn(read);
    worker.expect("a thread").join().expect("no panic");
    ExitCode::SUCCESS
}

/// A3: past 4,294,967,295 bytes the Rust's places start again at 0, where 01 refuses with 20.
fn wrapped_places() -> Count {
    let mut tally = Tally::between(SIDES, "differences A3");
    let text = " ".repeat(1 << 32) + "(abc) 1";
    let mut reading = Reading::default();
    steel::read(&text, false, &mut reading);
    let extents: Vec<_> = reading.items.iter().map(|item| [item.record[0], item.record[2], item.record[3]]).collect();
    let wrapped = vec![[0, 0, 1], [27, 1, 4], [1, 4, 5], [27, 6, 7]];
    tally.same(extents, wrapped, || "2^32 blanks, then (abc) 1".into());
    tally.know("A3");
    tally.close()
}
