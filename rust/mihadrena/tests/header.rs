//! The declarations of `mihadrena::raw` are those of include/mihadrena.h: every constant, every struct's fields, every function. The
//! refusals have the names and numbers that crate `refusal` has for the code and for the definitions.
use mihadrena::raw;
use std::collections::BTreeMap;

const HEADER: &str = include_str!("../../../include/mihadrena.h");
const RAW: &str = include_str!("../src/raw.rs");
const CHANGES: &str = include_str!("../../../CHANGELOG.md");
const REFUSALS: &str = include_str!("../../../crates/refusal/src/lib.rt");
const REFUSALS_DEFINED: &str = include_str!("../../../crates/refusal/specs/Refusals.antt");

/// Names with what stands for each.
type Declared = BTreeMap<String, String>;

/// A number in C or Rust, decimal or hex.
fn value(text: &str) -> u64 {
    match text.strip_prefix("0x") {
        Some(digits) => u64::from_str_radix(digits, 16).expect("a hex number"),
        None => text.parse().expect("a number"),
    }
}

/// The text without C's comments.
fn code(text: &str) -> String {
    let mut out = String::new();
    let mut rest = text;
    while let Some((before, behind)) = rest.split_once("/*") {
        out.push_str(before);
        rest = behind.split_once("*/").expect("a comment ends").1;
    }
    out + rest
}

fn header_constants() -> BTreeMap<String, u64> {
    let code = code(HEADER);
    let defines = code.lines().filter_map(|line| line.strip_prefix("#define MIHADRENA_"));
    defines
        .filter_map(|define| define.trim().split_once(' '))
        .filter(|(name, _)| !name.contains('('))
        .map(|(name, text)| (name.to_string(), value(text.trim())))
        .collect()
}

fn raw_constants() -> BTreeMap<String, u64> {
    let lines = RAW.lines().filter_map(|line| line.strip_prefix("pub const "));
    lines
        .map(|line| {
            let (name, typed) = line.split_once(": ").expect("a typed constant");
            let text = typed.split_once(" = ").expect("a value").1.trim_end_matches(';');
            (name.to_string(), value(text))
        })
        .collect()
}

/// The header's version, which is that of `raw` too, is the crate's, the archive's and the newest that CHANGELOG.md has.
#[test]
fn one_version() {
    let version = format!("{}.{}.{}", raw::VERSION_MAJOR, raw::VERSION_MINOR, raw::VERSION_PATCH);
    let newest = CHANGES.lines().find_map(|line| line.strip_prefix("## ")).and_then(|line| line.split_once(':'));
    assert_eq!(newest.map(|(number, _)| number), Some(version.as_str()));
    assert_eq!(env!("CARGO_PKG_VERSION"), version);
    let [major, minor, patch] = [raw::VERSION_MAJOR, raw::VERSION_MINOR, raw::VERSION_PATCH];
    assert_eq!(mihadrena::version(), major * 65536 + minor * 256 + patch);
}

#[test]
fn every_constant_is_the_headers() {
    let constants = raw_constants();
    assert!(constants.len() > 80, "the constants are found");
    assert_eq!(constants, header_constants());
}

/// `TOO_FEW` of `too_few`. Two names of the definitions had another meaning there already.
fn shouted(name: &str) -> String {
    match name {
        "over_long" => "TOO_LONG".to_string(),
        "no_such_mode" => "NO_MODE".to_string(),
        _ => name.to_ascii_uppercase(),
    }
}

/// The numbers of 32 bits that crate `refusal` has for the code.
fn refusals() -> BTreeMap<String, u64> {
    let lines = REFUSALS.lines().filter_map(|line| line.strip_prefix("pub const "));
    let numbers = lines.filter_map(|line| line.trim_end_matches(';').split_once(": u32 = "));
    numbers.map(|(name, text)| (name.to_string(), value(text))).collect()
}

/// What it has for the definitions, under the names of the code.
fn refusals_defined() -> BTreeMap<String, u64> {
    let lines = REFUSALS_DEFINED.lines().filter_map(|line| line.split_once(" = "));
    lines.map(|(name, text)| (shouted(name), value(text))).collect()
}

#[test]
fn every_refusal_has_one_name_and_number() {
    let (header, defined, refusals) = (header_constants(), refusals_defined(), refusals());
    assert!(refusals.len() > 20, "the refusals are found");
    for (name, number) in &refusals {
        assert_eq!(header.get(name), Some(number), "{name} in the header");
        assert_eq!(defined.get(name), Some(number), "{name} in the definitions");
    }
}

/// A type of C as Rust writes it.
fn rust_type(c: &str) -> &str {
    match c.trim() {
        "uint8_t" => "u8",
        "uint32_t" => "u32",
        "uint64_t" => "u64",
        "size_t" => "usize",
        "bool" => "bool",
        "const uint8_t *" => "*const u8",
        "const uint32_t *" => "*const u32",
        "size_t *" => "*mut usize",
        "uint8_t *" => "*mut u8",
        "uint32_t *" => "*mut u32",
        "uint64_t *" => "*mut u64",
        "double *" => "*mut f64",
        "mihadrena_figure" => "Figure",
        "mihadrena_real" => "Real",
        other => panic!("a type that the header does not use: {other}"),
    }
}

/// `const uint8_t *text` as `text: *const u8`, and `uint8_t bytes[MIHADRENA_STATE_BYTES]` as `bytes: [u8; STATE_BYTES]`.
fn rust_parameter(c: &str) -> String {
    let c = c.trim();
    if let Some((one, length)) = c.strip_suffix(']').and_then(|c| c.split_once("[MIHADRENA_")) {
        let (name, element) = declared(one);
        return format!("{name}: [{element}; {length}]");
    }
    let (name, kind) = declared(c);
    format!("{name}: {kind}")
}

/// The name that C declares, and its type as Rust writes it.
fn declared(c: &str) -> (&str, &str) {
    let at = c.rfind(|letter: char| letter != '_' && !letter.is_alphanumeric()).expect("a type and a name") + 1;
    (&c[at..], rust_type(&c[..at]))
}

/// The text without the functions that are written out in the header.
fn without_inline(code: &str) -> String {
    let mut parts = code.split("static inline");
    let first = parts.next().expect("a text").to_string();
    parts.fold(first, |before, inline| before + inline.split_once("\n}\n").expect("its end").1)
}

fn header_functions() -> Declared {
    let declarations = without_inline(&code(HEADER));
    let declarations: Vec<&str> = declarations.lines().filter(|line| !line.starts_with('#')).collect();
    let declarations = declarations.join("\n");
    let mut functions = Declared::new();
    for declaration in declarations.split(';') {
        let Some(paren) = declaration.find('(').filter(|_| declaration.ends_with(')')) else { continue };
        let head = declaration[..paren].lines().last().expect("a line");
        let Some((result, name)) = head.rsplit_once(' ').filter(|(_, name)| name.starts_with("mihadrena_")) else {
            continue;
        };
        let inside = &declaration[paren + 1..declaration.len() - 1];
        let parameters: Vec<String> = inside.split(',').filter(|one| *one != "void").map(rust_parameter).collect();
        let answers = if result == "void" { String::new() } else { format!(" -> {}", rust_type(result)) };
        functions.insert(name.to_string(), format!("({}){answers}", parameters.join(", ")));
    }
    functions
}

fn raw_functions() -> Declared {
    let inside = RAW.split_once("extern \"C\" {").expect("the functions").1.split_once('}').expect("their end").0;
    let declarations = inside.split(';').filter_map(|text| text.trim().strip_prefix("pub fn "));
    declarations
        .map(|declaration| {
            let (name, rest) = declaration.split_once('(').expect("parameters");
            let (parameters, answers) = rest.rsplit_once(')').expect("their end");
            let parameters: Vec<&str> = parameters.split(',').map(str::trim).filter(|one| !one.is_empty()).collect();
            (name.to_string(), format!("({}){answers}", parameters.join(", ")))
        })
        .collect()
}

#[test]
fn every_function_is_the_headers() {
    let functions = raw_functions();
    assert!(functions.len() > 20, "the functions are found");
    assert_eq!(functions, header_functions());
}

fn header_fields(name: &str) -> Vec<String> {
    let code = code(HEADER);
    let inside = code.split_once(&format!("typedef struct mihadrena_{name} {{")).expect("the struct").1;
    let fields = inside.split_once('}').expect("its end").0;
    fields.split(';').filter(|field| !field.trim().is_empty()).map(rust_parameter).collect()
}

fn raw_fields(name: &str) -> Vec<String> {
    let inside = RAW.split_once(&format!("pub struct {name} {{")).expect("the struct").1;
    let fields = inside.split_once('}').expect("its end").0;
    let lines = fields.lines().filter_map(|line| line.trim().strip_prefix("pub "));
    lines.map(|line| line.trim_end_matches(',').to_string()).collect()
}

#[test]
fn every_struct_is_the_headers() {
    let structs = [
        ("record", "Record"),
        ("row", "Row"),
        ("state", "State"),
        ("told", "Told"),
        ("figure", "Figure"),
        ("real", "Real"),
        ("parts", "Parts"),
        ("node", "Node"),
    ];
    for (c, rust) in structs {
        assert_eq!(header_fields(c), raw_fields(rust), "{rust}");
    }
    assert_eq!(size_of::<raw::Record>(), 4 * raw::RECORD_WORDS);
    assert_eq!(size_of::<raw::Row>(), 4 * raw::ROW_WORDS);
    assert_eq!(size_of::<raw::State>(), raw::STATE_BYTES + 8 * raw::STATE_WORDS);
    assert_eq!((size_of::<raw::State>(), align_of::<raw::State>()), (raw::STATE_SIZE, raw::STATE_ALIGN));
    assert_eq!(size_of::<raw::Told>(), 8 * raw::PIECE_VALUES);
    assert_eq!(size_of::<raw::Parts>(), 8 * raw::NUMBER_WORDS);
}
