//! Document 01's examples E1 to E16, its sample of `lexlist` and those of requests (vi) and (vii), written down from the documents and
//! compared with the Rust and with the proved call.
use crate::lexer::{self, Read};
use crate::report;
use crate::tally::{shown, Count, Tally};
use crate::Options;
use item::{Reading, Record};

/// An example: its name, its text, and the lines that `Reading::lines` must print for it.
struct Example {
    name: &'static str,
    text: &'static str,
    lines: &'static str,
}

/// A line is: kind, detail, extent, place, text source and places, depth, then the text in hex, then a number's parts.
const EXAMPLES: &[Example] = &[
    Example { name: "E1", text: "", lines: "" },
    Example { name: "E2", text: "+foo", lines: "27 0 0 4 0 4 1 0 1 0 x2b\n27 0 0 4 0 4 1 1 4 0 x666f6f\n" },
    Example { name: "E3", text: "||", lines: "27 0 0 2 0 2 1 1 1 0 x\n" },
    Example { name: "E4", text: "#\\", lines: "107 0 0 2 0 2 0 0 0 0 -\n" },
    Example { name: "E5", text: "1/0", lines: "108 0 0 3 0 3 0 0 0 0 -\n" },
    Example { name: "E6", text: "1/-2", lines: "27 0 0 4 0 4 1 0 4 0 x312f2d32\n" },
    Example { name: "E7", text: "1@1/-2", lines: "29 0 0 6 0 6 0 0 0 0 - polar 1 1/-2\n" },
    Example { name: "E8", text: "14.7;gps", lines: "27 0 0 4 0 4 1 0 4 0 x31342e37\n25 0 4 8 4 8 0 0 0 0 -\n" },
    Example { name: "E9", text: "|a\\|", lines: "27 0 0 4 0 4 2 0 2 0 x617c\n" },
    Example { name: "E10", text: "\"\\xD800;\"", lines: "112 55296 0 8 1 8 0 0 0 0 -\n102 0 8 9 1 8 0 0 0 0 -\n" },
    Example { name: "E11", text: "\"\\x+41;\"", lines: "30 0 0 8 0 8 2 0 1 0 x41\n" },
    Example { name: "E12", text: "#<<\nabc", lines: "30 0 0 5 0 5 1 4 5 0 x61\n27 0 5 7 5 7 1 5 7 0 x6263\n" },
    Example { name: "E13", text: "-|a|", lines: "103 0 0 4 0 4 0 0 0 0 -\n" },
    Example { name: "E14", text: "|\\\n|", lines: "27 0 0 4 0 4 1 1 3 0 x5c0a\n" },
    Example { name: "E15", text: "#xe+1i", lines: "27 0 0 6 0 6 1 0 6 0 x2378652b3169\n" },
    Example {
        name: "E16",
        text: "12,5",
        lines: "27 0 0 2 0 2 1 0 2 0 x3132\n4 0 2 3 2 3 0 0 0 0 -\n29 0 3 4 3 4 0 0 0 0 - real 5\n",
    },
];

/// E8 in report mode; 14.7 is the float 402d666666666666.
const REPORT: Example = Example {
    name: "E8 in report mode",
    text: "14.7;gps",
    lines: "29 0 0 4 0 4 0 0 0 0 - real float:402d666666666666\n25 0 4 8 4 8 0 0 0 0 -\n",
};

/// Request (vii)'s places of error 11, and error 13, in report mode.
const POINTED: &[Example] = &[
    Example { name: "a bad digit", text: "\"\\x4G1;\"", lines: "111 2 0 7 4 5 0 0 0 0 -\n102 0 7 8 7 8 0 0 0 0 -\n" },
    Example { name: "a bad digit of two bytes", text: "|\\x4é;", lines: "111 2 0 7 4 6 0 0 0 0 -\n" },
    Example { name: "a sign alone", text: "\"\\x+;", lines: "111 2 0 5 3 4 0 0 0 0 -\n" },
    Example { name: "no digits", text: "\"\\u;", lines: "111 1 0 4 3 3 0 0 0 0 -\n" },
    Example { name: "no digits in braces", text: "#\\u{}", lines: "111 1 0 5 4 4 0 0 0 0 -\n" },
    Example { name: "too many digits", text: "#\\x100000000", lines: "111 3 0 12 11 12 0 0 0 0 -\n" },
    Example { name: "a delimiter", text: "#\\a;", lines: "113 0 0 4 3 4 0 0 0 0 -\n" },
    Example { name: "a delimiter after two bytes", text: "#\\é;", lines: "113 0 0 5 4 5 0 0 0 0 -\n" },
    Example { name: "a delimiter alone", text: "#\\;", lines: "23 59 0 3 0 3 0 0 0 0 -\n" },
    Example { name: "no delimiter", text: "#\\abc", lines: "110 0 0 5 0 5 0 0 0 0 -\n" },
    Example { name: "digits before a delimiter", text: "#\\x4G;", lines: "111 2 0 6 4 5 0 0 0 0 -\n" },
];

/// Request (vi)'s depths: a text, and the depth of each of its items.
const DEEP: &[(&str, &[u32])] = &[
    ("(a)", &[0, 1, 1]),
    (")(", &[0, 0]),
    (")))a", &[0, 0, 0, 0]),
    ("([{#(#u8(a", &[0, 1, 2, 3, 4, 5]),
    ("(]a", &[0, 1, 0]),
    ("(+foo ;c\n)a", &[0, 1, 1, 1, 1, 0]),
    ("(\"(\"|(|#\\( #|(|#a", &[0, 1, 1, 1, 1, 1]),
    ("(1/0)##", &[0, 1, 1, 0]),
];

const LEXLIST: (&str, &str) = ("(a 14.7;gps\n", "0 0 1\n27 1 2\n27 3 7\n25 7 12\nend 4\n");

pub fn judge(_: &Options) -> Count {
    let mut count = Count::default();
    count.add(all("the Rust", steel::read, report::read));
    count.add(all("proved", lexer::plain, lexer::in_report));
    count
}

/// A reader, in plain and in report mode, against what 01 says.
fn all(name: &'static str, plain: Read, report: Read) -> Count {
    let mut tally = Tally::between([name, "01"], format!("examples E1 to E16, (vi), (vii), lexlist, {name}"));
    for example in EXAMPLES {
        same(&mut tally, example, plain);
    }
    same(&mut tally, &REPORT, report);
    for example in POINTED {
        same(&mut tally, example, report);
    }
    for (text, depths) in DEEP {
        for read in [plain, report] {
            tally.same(deep(text, read), depths.to_vec(), || shown(text.as_bytes()));
        }
    }
    let (text, listed) = LEXLIST;
    let mut reading = Reading::default();
    plain(text, false, &mut reading);
    tally.same(lexlist(&reading), listed.to_string(), || "lexlist".into());
    tally.close()
}

fn same(tally: &mut Tally, example: &Example, read: Read) {
    let mut reading = Reading::default();
    read(example.text, false, &mut reading);
    let lines = reading.lines(example.text.as_bytes()).to_string();
    tally.same(lines, example.lines.to_string(), || format!("{} {}", example.name, shown(example.text.as_bytes())));
}

/// The depths of a text's items.
fn deep(text: &str, read: Read) -> Vec<u32> {
    let mut reading = Reading::default();
    read(text, false, &mut reading);
    reading.items.iter().map(|item| item.record[item::DEPTH]).collect()
}

/// A reading as the program `lexlist` prints it: kind and extent, the place of an error, the count.
fn lexlist(reading: &Reading) -> String {
    const FIRST_ERROR: u32 = 101;
    let mut out = String::new();
    for item in &reading.items {
        let [kind, _, start, end, from, to, ..]: Record = item.record;
        out += &format!("{kind} {start} {end}");
        if kind >= FIRST_ERROR {
            out += &format!(" {from} {to}");
        }
        out.push('\n');
    }
    out + &format!("end {}\n", reading.items.len())
}
