//! The crate `chars` against Rust's own library: `char::is_whitespace`, `char::encode_utf8` and `std::str::from_utf8`.
use crate::tally::{shown, Count, Tally};
use crate::Options;
use proved::{BAD, CUT, END};

/// Every code point, the surrogates among them, some numbers past them all and the last of 32 bits.
fn codes() -> impl Iterator<Item = u32> {
    (0..=0x11_0FFF).chain([0x1F_FFFF, 0x20_0000, 0x7FFF_FFFF, 0x8000_0000, u32::MAX])
}

pub fn judge(options: &Options) -> Count {
    let mut count = Count::default();
    if options.family.is_none() {
        count.add(blanks());
        count.add(encoded());
        count.add(sequences(options));
    }
    for name in options.wanted(&["plans", "damaged", "bad", "long"]) {
        count.add(family(name, options));
    }
    count
}

fn blanks() -> Count {
    let mut tally = Tally::new("chars is_blank, codes");
    for code in codes() {
        let rust = char::from_u32(code).is_some_and(char::is_whitespace);
        tally.same(rust, proved::is_blank(code), || format!("U+{code:04X}"));
    }
    tally.close()
}

/// Each code is written into memory with room for 0 to 5 bytes, all of which is compared, and read back.
fn encoded() -> Count {
    const OLD: [u8; 5] = [0xAA; 5];
    let mut tally = Tally::new("chars put_char, codes");
    for code in codes() {
        for room in 0..=OLD.len() {
            let (mut expected, mut written) = (OLD, OLD);
            let rust = match char::from_u32(code) {
                Some(c) if c.len_utf8() <= room => c.encode_utf8(&mut expected).len(),
                _ => 0,
            };
            let count = proved::put_char(code, &mut written[..room]);
            tally.same((rust, expected), (count, written), || format!("U+{code:04X} in {room} bytes"));
            if count > 0 {
                same_at(&mut tally, &written, 0);
            }
        }
    }
    tally.close()
}

/// All sequences of up to 3 bytes, alone and with more behind them.
fn sequences(options: &Options) -> Count {
    let mut tally = Tally::new("chars good_bytes, code_at, bytes");
    let mut text = Vec::new();
    options.each("bytes", u64::MAX, &mut |sequence| {
        tally.text();
        for behind in [&b""[..], b"\x80", b"\xBF", b"\xC0", b"a"] {
            text.clear();
            text.extend_from_slice(sequence);
            text.extend_from_slice(behind);
            same_good(&mut tally, &text);
            same_at(&mut tally, &text, 0);
        }
    });
    tally.close()
}

/// A family of texts: where each stops being good, from each of its first bytes on, and what stands at each of its places.
fn family(name: &'static str, options: &Options) -> Count {
    let mut tally = Tally::new(format!("chars good_bytes, code_at, {name}"));
    options.each(name, u64::MAX, &mut |text| {
        tally.text();
        // The proved function takes sixteen bytes at a time: so many starts meet every way of cutting a text into them.
        for start in 0..text.len().min(16) {
            same_good(&mut tally, &text[start..]);
        }
        for at in 0..text.len() + 2 {
            same_at(&mut tally, text, at);
        }
    });
    tally.close()
}

fn same_good(tally: &mut Tally, text: &[u8]) {
    let rust = std::str::from_utf8(text).map_or_else(|error| error.valid_up_to(), str::len);
    tally.same(rust, proved::good_bytes(text), || shown(text));
}

fn same_at(tally: &mut Tally, text: &[u8], at: usize) {
    let proved = (proved::code_at(text, at), proved::next_at(text, at));
    tally.same(std_at(text, at), proved, || format!("place {at} of {}", shown(text)));
}

/// What Rust's library says of the bytes at a place, of which four are enough, in the exported functions' numbers.
fn std_at(text: &[u8], at: usize) -> (u32, usize) {
    let rest = text.get(at..).unwrap_or_default();
    let rest = &rest[..rest.len().min(4)];
    let (good, bad) = match std::str::from_utf8(rest) {
        Ok(good) => (good, END),
        Err(error) => {
            let good = std::str::from_utf8(&rest[..error.valid_up_to()]).expect("good up to here");
            (good, if error.error_len().is_some() { BAD } else { CUT })
        }
    };
    match good.chars().next() {
        Some(c) => (c as u32, at + c.len_utf8()),
        None => (bad, at),
    }
}
