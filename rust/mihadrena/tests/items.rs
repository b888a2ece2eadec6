//! The interface against document 01's examples, its errors and its refusals.
use mihadrena::{needed, nest, number, raw};
use mihadrena::{
    Decimal, Error, HexError, Int, Items, Kind, Mode, Needed, NotNested, NotNumber, Number, Options, Paren, ParenMod,
};
use mihadrena::{Real, Record, Refusal, Sign};

const PLAIN: Options = Options { mode: Mode::Plain, skip_comments: false };
const REPORT: Options = Options { mode: Mode::Report, skip_comments: false };

/// The items of a text, each with its extent, in just the memory that it needs.
fn read(text: &str, options: Options) -> Vec<(Result<OwnedKind, Error>, std::ops::Range<usize>)> {
    let Needed { records, text: bytes } = needed(text, options).expect("a text");
    let mut records = vec![Record::default(); records];
    let mut memory = vec![0; bytes];
    let items = Items::new(text, options, &mut records, &mut memory).expect("enough memory");
    items.map(|item| (item.what.map(|kind| format!("{kind:?}")), item.extent)).collect()
}

/// A kind as it is printed for debugging: it outlives the memory.
type OwnedKind = String;

fn shown(kind: Kind<'_>) -> Result<OwnedKind, Error> {
    Ok(format!("{kind:?}"))
}

#[test]
fn examples_of_document_01() {
    let identifier = |text, extent| (shown(Kind::Identifier(text)), extent);
    assert_eq!(read("", PLAIN), []);
    assert_eq!(read("+foo", PLAIN), [identifier("+", 0..4), identifier("foo", 0..4)]);
    assert_eq!(read("||", PLAIN), [identifier("", 0..2)]);
    assert_eq!(read("#\\", PLAIN), [(Err(Error::InvalidCharacter), 0..2)]);
    assert_eq!(read("1/0", PLAIN), [(Err(Error::ZeroDenominator), 0..3)]);
    assert_eq!(read("1/-2", PLAIN), [identifier("1/-2", 0..4)]);
    assert_eq!(read("1@1/-2", PLAIN), [(shown(Kind::Number("1@1/-2")), 0..6)]);
    assert_eq!(read("14.7;gps", PLAIN), [identifier("14.7", 0..4), (shown(Kind::Comment), 4..8)]);
    assert_eq!(read("|a\\|", PLAIN), [identifier("a|", 0..4)]);
    assert_eq!(read("\"\\x+41;\"", PLAIN), [(shown(Kind::StringLiteral("A")), 0..8)]);
    assert_eq!(read("#<<\nabc", PLAIN), [(shown(Kind::StringLiteral("a")), 0..5), identifier("bc", 5..7)]);
    assert_eq!(read("|\\\n|", PLAIN), [identifier("\\\n", 0..4)]);
}

#[test]
fn modes_and_comments() {
    assert_eq!(read("14.7;gps", REPORT)[0], (shown(Kind::Number("14.7")), 0..4));
    let skip = Options { mode: Mode::Plain, skip_comments: true };
    assert_eq!(read("a ;b\n#|c|# #;d", skip).len(), 3);
}

/// The depths of a text's items.
fn depths(text: &str, options: Options) -> Vec<usize> {
    let mut records = vec![Record::default(); text.len()];
    let items = Items::new(text, options, &mut records, &mut []).expect("a record for each byte is enough");
    items.map(|item| item.depth).collect()
}

#[test]
fn open_brackets_before_an_item() {
    let texts: [(&str, &[usize]); 9] = [
        ("(a)", &[0, 1, 1]),
        (")(", &[0, 0]),
        (")))a", &[0, 0, 0, 0]),
        ("([{#(#u8(a", &[0, 1, 2, 3, 4, 5]),
        ("(a]b}c", &[0, 1, 1, 0, 0, 0]),
        ("(+foo)", &[0, 1, 1, 1]),
        ("(;c\n#|(|#)a", &[0, 1, 1, 1, 0]),
        ("(\"(\" #\\( |(| 'a", &[0, 1, 1, 1, 1, 1]),
        ("(1/0 ##", &[0, 1, 1]),
    ];
    for (text, expected) in texts {
        assert_eq!(depths(text, PLAIN), expected, "{text}");
        assert_eq!(depths(text, REPORT), expected, "{text}");
    }
    let skip = Options { mode: Mode::Plain, skip_comments: true };
    assert_eq!(depths("(;c\n#|(|#)a", skip), [0, 1, 0]);
}

#[test]
fn just_enough_words_and_one_too_few() {
    const OLD: u32 = 77;
    let source = b"(a)";
    let read = |words: &mut [u32]| {
        let mut values = [0; raw::READ_VALUES];
        // SAFETY: each pointer and length is those of a slice, and the mutable ones are borrowed as such.
        let answer = unsafe {
            raw::mihadrena_read(
                source.as_ptr(),
                source.len(),
                raw::PLAIN,
                false,
                words.as_mut_ptr(),
                words.len(),
                [].as_mut_ptr(),
                0,
                values.as_mut_ptr(),
                values.len(),
            )
        };
        (answer, values)
    };
    let mut words = [OLD; 3 * raw::RECORD_WORDS + 1];
    assert_eq!(read(&mut words[..3 * raw::RECORD_WORDS - 1]), (raw::TOO_FEW, [3, 0]));
    assert_eq!(words, [OLD; 3 * raw::RECORD_WORDS + 1]);
    assert_eq!(read(&mut words[..3 * raw::RECORD_WORDS]), (raw::SERVED, [3, 0]));
    assert_eq!(words[2 * raw::RECORD_WORDS..], [raw::CLOSE_PAREN, 0, 2, 3, 2, 3, raw::NO_TEXT, 0, 0, 1, OLD]);
}

#[test]
fn nodes_are_the_same_whatever_the_depths() {
    let mut records = [Record::default(); 8];
    let items = Items::new("(a #(b) 'c)", PLAIN, &mut records, &mut []).expect("eight records are enough").len();
    assert_eq!(items, records.len());
    let built = |records: &[Record]| {
        let mut nodes = [raw::Node::default(); 8];
        let mut values = [0; raw::NEST_VALUES];
        // SAFETY: each pointer and length is those of an array or a slice, and the mutable ones are borrowed as such.
        let answer = unsafe {
            raw::mihadrena_nest(
                records.as_ptr().cast(),
                records.len() * raw::RECORD_WORDS,
                nodes.as_mut_ptr().cast(),
                nodes.len() * raw::NODE_WORDS,
                values.as_mut_ptr(),
                values.len(),
            )
        };
        (answer, values, nodes)
    };
    let first = built(&records);
    assert_eq!((first.0, first.1), (raw::SERVED, [6]));
    for depth in [0, 77, u32::MAX] {
        records.iter_mut().for_each(|record| record.depth = depth);
        assert_eq!(built(&records), first, "every depth {depth}");
    }
}

/// The second error sets no place: in plain mode it points at the first one's, as the Rust's does, in report mode at its own extent.
#[test]
fn an_error_that_sets_no_place() {
    for (options, second) in [(PLAIN, 1..8), (REPORT, 8..9)] {
        let mut records = [Record::default(); 2];
        let items = Items::new("\"\\xD800;\"", options, &mut records, &mut []).expect("two records are enough");
        let found: Vec<_> = items.map(|item| (item.what, item.extent, item.place)).collect();
        assert_eq!(
            found,
            [(Err(Error::InvalidHexCodePoint(0xD800)), 0..8, 1..8), (Err(Error::IncompleteString), 8..9, second)],
            "{options:?}"
        );
    }
}

/// The first item of a text, an error, and what it points at.
fn pointed(text: &str, options: Options) -> (Error, &str) {
    let mut records = vec![Record::default(); text.len()];
    let mut items = Items::new(text, options, &mut records, &mut []).expect("a record for each byte is enough");
    let item = items.next().expect("an item");
    (item.what.expect_err("an error"), &text[item.place])
}

#[test]
fn a_bad_hex_digit_is_told_to_the_byte() {
    let digits = [
        ("\"\\x4G1;", HexError::InvalidDigit, "\\x4G1;", "G"),
        ("|\\u{4é}", HexError::InvalidDigit, "\\u{4é}", "é"),
        ("#\\x+", HexError::InvalidDigit, "#\\x+", "+"),
        ("\"\\x;", HexError::Empty, "\\x;", ""),
        ("#\\u{}", HexError::Empty, "#\\u{}", ""),
        ("|\\xFFFFFFFF8;", HexError::PosOverflow, "\\xFFFFFFFF8;", "8"),
    ];
    for (text, error, plain, report) in digits {
        let error = Error::InvalidHexEscapeLiteral(error);
        assert_eq!(pointed(text, PLAIN), (error, plain), "{text}");
        assert_eq!(pointed(text, REPORT), (error, report), "{text}");
    }
}

#[test]
fn an_empty_place_has_a_position() {
    let mut records = [Record::default(); 1];
    let items = Items::new("\"\\x;", REPORT, &mut records, &mut []).expect("one record is enough");
    assert_eq!(items.map(|item| (item.extent, item.place)).collect::<Vec<_>>(), [(0..4, 3..3)]);
}

#[test]
fn a_delimiter_in_a_character_name() {
    for (text, delimiter) in [("#\\a;", ";"), ("#\\é\"x", "\""), ("#\\;'", "'"), ("#\\ab,", ",")] {
        assert_eq!(pointed(text, PLAIN), (Error::InvalidCharName, text), "{text}");
        assert_eq!(pointed(text, REPORT), (Error::InvalidCharDelimiter, delimiter), "{text}");
    }
    assert_eq!(Error::InvalidCharDelimiter.to_string(), "delimiter in a character name");
    assert_eq!(pointed("#\\abc", REPORT), (Error::InvalidCharName, "#\\abc"));
    assert_eq!(read("#\\;", REPORT), [(shown(Kind::CharacterLiteral(';')), 0..3)]);
    let mut records = [Record::default(); 2];
    let items = Items::new("a #\\a;", REPORT, &mut records, &mut []).expect("two records are enough");
    assert_eq!(nest(&items, &mut []).err(), Some(NotNested::ErrorItem(1)));
}

#[test]
fn every_kind() {
    let kinds = [
        ("(", Kind::OpenParen(Paren::Round, None)),
        ("[", Kind::OpenParen(Paren::Square, None)),
        ("{", Kind::OpenParen(Paren::Curly, None)),
        ("#(", Kind::OpenParen(Paren::Round, Some(ParenMod::Vector))),
        ("#u8(", Kind::OpenParen(Paren::Round, Some(ParenMod::Bytes))),
        (")", Kind::CloseParen(Paren::Round)),
        ("]", Kind::CloseParen(Paren::Square)),
        ("}", Kind::CloseParen(Paren::Curly)),
        ("'", Kind::QuoteTick),
        ("`", Kind::QuasiQuote),
        (",", Kind::Unquote),
        (",@", Kind::UnquoteSplice),
        ("#'", Kind::QuoteSyntax),
        ("#`", Kind::QuasiQuoteSyntax),
        ("#,", Kind::UnquoteSyntax),
        ("#,@", Kind::UnquoteSpliceSyntax),
        ("if", Kind::If),
        ("define", Kind::Define),
        ("defn", Kind::Define),
        ("#%define", Kind::Define),
        ("let", Kind::Let),
        ("%plain-let", Kind::TestLet),
        ("return!", Kind::Return),
        ("begin", Kind::Begin),
        ("lambda", Kind::Lambda),
        ("fn", Kind::Lambda),
        ("#%plain-lambda", Kind::Lambda),
        ("λ", Kind::Lambda),
        ("quote", Kind::Quote),
        ("syntax-rules", Kind::SyntaxRules),
        ("define-syntax", Kind::DefineSyntax),
        ("...", Kind::Ellipses),
        ("set!", Kind::Set),
        ("require", Kind::Require),
        ("#\\a", Kind::CharacterLiteral('a')),
        ("#\\newline", Kind::CharacterLiteral('\n')),
        ("#;", Kind::DatumComment),
        ("; a", Kind::Comment),
        ("#|a|#", Kind::Comment),
        ("#t", Kind::BooleanLiteral(true)),
        ("#false", Kind::BooleanLiteral(false)),
        ("stand", Kind::Identifier("stand")),
        ("|a b|", Kind::Identifier("a b")),
        ("#:key", Kind::Keyword("#:key")),
        ("14.7", Kind::Number("14.7")),
        ("\"beech\\n\"", Kind::StringLiteral("beech\n")),
        (".", Kind::Dot),
    ];
    for (text, kind) in kinds {
        assert_eq!(read(text, PLAIN), [(shown(kind), 0..text.len())], "{text}");
    }
}

#[test]
fn every_error_and_its_text() {
    let errors = [
        ("##", Error::UnexpectedChar('#'), "unexpected char '#'"),
        ("#<<a b", Error::UnexpectedChar(' '), "unexpected char ' '"),
        ("\"a", Error::IncompleteString, "incomplete string"),
        ("|a", Error::IncompleteIdentifier, "incomplete identifier"),
        ("#|", Error::IncompleteComment, "incomplete comment"),
        ("\"\\ x", Error::InvalidWhitespace, "unexpected character, expected whitespace or newline"),
        ("\"\\q", Error::InvalidStringEscape('q'), "invalid escape 'q'"),
        ("#\\", Error::InvalidCharacter, "invalid character"),
        ("1/0", Error::ZeroDenominator, "division by zero is not allowed in rational literals"),
        ("\"\\u{4;", Error::UnclosedHexEscape('}'), "unclosed hex escape, expected '}'"),
        ("#\\nothing", Error::InvalidCharName, "invalid character name"),
        (
            "\"\\x;",
            Error::InvalidHexEscapeLiteral(HexError::Empty),
            "invalid hex escape literal, cannot parse integer from empty string",
        ),
        (
            "#\\xyz",
            Error::InvalidHexEscapeLiteral(HexError::InvalidDigit),
            "invalid hex escape literal, invalid digit found in string",
        ),
        (
            "#\\x100000000",
            Error::InvalidHexEscapeLiteral(HexError::PosOverflow),
            "invalid hex escape literal, number too large to fit in target type",
        ),
        ("#\\xD800", Error::InvalidHexCodePoint(0xD800), "invalid code point d800"),
    ];
    for (text, error, display) in errors {
        assert_eq!(read(text, PLAIN)[0].0, Err(error), "{text}");
        assert_eq!(error.to_string(), display);
    }
}

#[test]
fn the_hex_errors_texts_are_the_librarys() {
    for (digits, error) in [("", HexError::Empty), ("g", HexError::InvalidDigit), ("100000000", HexError::PosOverflow)]
    {
        assert_eq!(u32::from_str_radix(digits, 16).unwrap_err().to_string(), error.to_string());
    }
}

#[test]
fn refused_calls_change_nothing() {
    let old = Record { kind: 77, ..Record::default() };
    let mut records = [old; 3];
    let mut text = [0xA5; 1];
    let refused = Items::new("a \"\\n\\n\" b", PLAIN, &mut records, &mut text).err();
    assert_eq!(refused, Some(Refusal::TooFew { records: 3, text: 2 }));
    assert_eq!((records, text), ([old; 3], [0xA5; 1]));
    assert_eq!(needed(b"a\xC3", PLAIN), Err(Refusal::NotUtf8(1)));
    assert_eq!(Refusal::NotUtf8(1).number(), raw::NOT_UTF8);
    assert_eq!(Refusal::NotUtf8(1).to_string(), "invalid UTF-8 at byte 1");
    assert_eq!(Refusal::TooLong.to_string(), "text exceeds 4294967295 bytes");
    assert_eq!(
        Refusal::TooFew { records: 3, text: 2 }.to_string(),
        "too little memory, 3 records and 2 text bytes needed"
    );
}

#[test]
fn memory_behind_the_items_stays() {
    let old = Record { kind: 77, ..Record::default() };
    let mut records = [old; 3];
    let mut text = [0xA5; 4];
    let items = Items::new("\"\\n\"", PLAIN, &mut records, &mut text).expect("enough memory");
    assert_eq!((items.len(), items.records()[0].text_source), (1, raw::IN_MEMORY));
    assert_eq!((&records[1..], text), (&[old; 2][..], [b'\n', 0xA5, 0xA5, 0xA5]));
}

#[test]
fn items_from_both_ends() {
    let mut records = [Record::default(); 4];
    let mut items = Items::new("(a b)", PLAIN, &mut records, &mut []).expect("enough memory");
    assert_eq!(items.next_back().map(|item| item.what), Some(Ok(Kind::CloseParen(Paren::Round))));
    assert_eq!(items.len(), 3);
    assert_eq!(items.clone().next_back().map(|item| item.what), Some(Ok(Kind::Identifier("b"))));
}

#[test]
fn parts_of_numbers() {
    let int = |value| Real::Integer(Int::Small(value));
    assert_eq!(number("-9223372036854775808"), Ok(Number::Real(int(i64::MIN))));
    assert_eq!(number("9223372036854775807"), Ok(Number::Real(int(i64::MAX))));
    let big = Real::Integer(Int::Big(Sign::Minus, "9223372036854775809"));
    assert_eq!(number("-9223372036854775809"), Ok(Number::Real(big)));
    assert_eq!(number("#xff"), Ok(Number::Real(int(255))));
    assert_eq!(number("1@1/-2"), Ok(Number::Polar(int(1), Real::Rational(Int::Small(1), Int::Small(-2)))));
    assert_eq!(number("+i"), Ok(Number::Complex(Real::ImpliedZero, Real::ImpliedOne(Sign::Plus))));
    assert_eq!(number("-inf.0"), Ok(Number::Real(Real::Infinity(Sign::Minus))));
    assert_eq!(number("+nan.0"), Ok(Number::Real(Real::Nan(Sign::Plus))));
    let decimal = Decimal { sign: Sign::Minus, whole: "", fraction: "5", exponent_sign: Sign::Minus, exponent: "07" };
    assert_eq!(number("-.5e-07"), Ok(Number::Real(Real::Decimal(decimal))));
    assert_eq!(number("1/0").map_err(|error| error.to_string()), Err(Error::ZeroDenominator.to_string()));
    assert_eq!(number("stand"), Err(NotNumber::NoNumber));
    assert_eq!(number(b"1\xFF"), Err(NotNumber::Refused(Refusal::NotUtf8(1))));
}
