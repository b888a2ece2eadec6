//! `gen FAMILY [SEED] [COUNT]` writes the texts of a family, framed, to standard output; `gen` alone lists the families.
use std::io::{self, BufWriter, Write};
use std::process::ExitCode;

fn main() -> ExitCode {
    let words: Vec<String> = std::env::args().skip(1).collect();
    let number = |at: usize, default| words.get(at).map_or(Some(default), |word| word.parse().ok());
    let (Some(name), Some(seed), Some(count)) = (words.first(), number(1, 0), number(2, 1000)) else {
        return list();
    };
    let Some(family) = gen::family(name) else {
        return list();
    };
    let mut out = BufWriter::new(io::stdout().lock());
    let mut result = Ok(());
    family.each(seed, count, &mut |text| {
        if result.is_ok() {
            result = gen::write_frame(&mut out, text);
        }
    });
    match result.and_then(|()| out.flush()) {
        Ok(()) => ExitCode::SUCCESS,
        Err(error) => {
            eprintln!("gen: {error}");
            ExitCode::FAILURE
        }
    }
}

fn list() -> ExitCode {
    eprintln!("usage: gen FAMILY [SEED] [COUNT]");
    for family in gen::FAMILIES {
        eprintln!("  {:9} {}", family.name, family.about);
    }
    ExitCode::FAILURE
}
