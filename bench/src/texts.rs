//! The texts that are read: a plan, and texts of one sort each.

pub const MEGABYTE: usize = 1 << 20;

/// A text, and how it is made with about so many bytes.
pub struct Text {
    pub name: &'static str,
    pub make: fn(usize) -> String,
}

const fn text(name: &'static str, make: fn(usize) -> String) -> Text {
    Text { name, make }
}

pub const TEXTS: &[Text] = &[
    text("plan", plan),
    text("string", |n| format!("\"{}\"", "a".repeat(n - 2))),
    text("strings-of-4000-bytes", |n| format!("\"{}\"\n", "a".repeat(3998)).repeat(n / 4001)),
    text("line-comments", |n| format!(";{}\n", "x".repeat(60)).repeat(n / 62)),
    text("nested-comments", |n| format!("#|{}#|{}|#|#", "a".repeat(n / 2 - 4), "b".repeat(n / 2 - 4))),
    text("brackets", |n| "()".repeat(n / 2)),
    text("words", |n| "abc ".repeat(n / 4)),
    text("northern-words", |n| repeated("skjønn ås bjørk på ", n)),
    text("northern-strings", |n| repeated("\"Kjør på åsen, ikke på myra.\" ", n)),
    text("northern-comments", |n| repeated("; kubikkmeter på åsen, målt\n", n)),
    text("northern-lists", |n| repeated("(stånd björk ÄÄÄ \"lövträd på åsen\" 14.7)\n", n)),
    text("cyrillic", |n| repeated("; сосна и берёза на холме\n(делянка сосна 12 берёза)\n", n)),
    text("integers", |n| (0..n / 8).map(|i| format!("{} ", 1_000_000 + i)).collect()),
    text("decimals", |n| (0..n / 11).map(|i| format!("{:.2} ", 6_892_000.0 + 1.37 * i as f64)).collect()),
    text("blanks", |n| " ".repeat(n)),
    text("errors", |n| "\"\\q".repeat(n / 3)),
    text("letters-of-two-bytes", |n| format!("\"{}\"", "é".repeat(n / 2 - 1))),
    text("letters-of-three-bytes", |n| format!("\"{}\"", repeated("森林", n - 2))),
    text("letters-of-four-bytes", |n| format!("\"{}\"", repeated("🌲", n - 2))),
    text("first-line", |n| format!("#!{}\n", "x".repeat(n - 3))),
];

/// Texts of one sort of item each, whose cost is told by the item.
pub const ITEMS: &[Text] = &[
    text("booleans", |n| repeated("#t ", n)),
    text("vectors", |n| repeated("#(1) ", n)),
    text("lines-with-returns", |n| repeated("abc\r\n", n)),
    text("words-of-a-letter", |n| repeated("å ", n)),
    text("short-strings", |n| repeated("\"abc\" ", n)),
    text("words-in-bars", |n| repeated("|bjørk| ", n)),
    text("escapes", |n| repeated("\"\\n\" ", n)),
    text("short-nested-comments", |n| repeated("#| abc def ghi |# ", n)),
    text("pairs", |n| repeated("+foo ", n)),
    text("negative-decimals", |n| repeated("-14.7 ", n)),
    text("characters", |n| repeated("#\\a ", n)),
    text("named-characters", |n| repeated("#\\space ", n)),
    text("keywords", |n| repeated("#:left ", n)),
    text("unquotes", |n| repeated(",abc ", n)),
    text("words-of-signs", |n| repeated("*abc* ", n)),
    text("dots", |n| repeated("... ", n)),
    text("short-here-strings", |n| repeated("#<<E\nabc\nE\n", n)),
    text("rationals", |n| repeated("142/7 ", n)),
    text("complex-numbers", |n| repeated("142.5-52i ", n)),
    text("exponents", |n| repeated("142.5e-3 ", n)),
    text("polar-numbers", |n| repeated("142@17 ", n)),
    text("hexadecimals", |n| repeated("#x8eab ", n)),
    text("integers-of-19-digits", |n| repeated("1000000000000000142 ", n)),
];

/// A text over and over, in at most so many bytes.
fn repeated(text: &str, bytes: usize) -> String {
    text.repeat(bytes / text.len())
}

/// The texts that are lent as one piece.
pub fn in_one_piece() -> Vec<&'static Text> {
    ["plan", "blanks", "line-comments", "first-line"].into_iter().filter_map(named).collect()
}

pub fn all() -> impl Iterator<Item = &'static Text> {
    TEXTS.iter().chain(ITEMS)
}

pub fn named(name: &str) -> Option<&'static Text> {
    all().find(|text| text.name == name)
}

/// A felling plan in the style of examples/plan.scm, stand after stand.
fn plan(bytes: usize) -> String {
    let mut seed = 1;
    let mut below = |n: u32| {
        seed = (seed * 1_103_515_245u64 + 12_345) % (1 << 31);
        (seed >> 8) as u32 % n
    };
    let mut out = String::from(
        "; Felling plan, example data.\n(plan \"Kvernmoen 14\" version 3\n  (owner |Øyvind Sjåmo|)\n  (zone 32)\n",
    );
    let mut stand = 100;
    while out.len() < bytes {
        stand += 1;
        let species = ["spruce", "pine", "birch"][below(3) as usize];
        let second = ["|bjørk|", "aspen", ""][below(3) as usize];
        out += &format!("\n  (stand {stand}\n    (species {species} {second})\n    (volume {}.{})                      ; solid cubic metres\n    (outline", below(500), below(10));
        for _ in 0..3 + below(6) {
            out += &format!(
                "\n      (corner 6892{:03}.{} 611{:03}.{:02})",
                below(1000),
                below(10),
                below(1000),
                below(100)
            );
        }
        out += &format!(
            ")\n    (slope 1/{})\n    (leave-standing {})\n    (marks #({} {} {}))\n",
            2 + below(8),
            ["#t", "#f"][below(2) as usize],
            below(99),
            below(99),
            below(99)
        );
        out += [
            "    (note \"Keep 3 m off the ditch.\\nNo crossing after rain.\"))\n",
            "    (note \"Stay on the tracks.\"))\n",
        ][below(2) as usize];
        if below(5) == 0 {
            out += "\n  #| The western edge was walked twice:\n     the second walk is the one below. |#\n";
        }
    }
    out + ")\n"
}
