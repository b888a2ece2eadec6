//! Item files a second time, from the request's words alone: plain Rust that allocates nothing. It is what the proved calls are compared
//! with, and what their speed is measured against.

/// An answer: the request's number, 0 if served, and what it comes with.
pub type Answer = (u32, u64);

const WORDS: usize = 10;

/// The number that stands at a place, which moves behind it.
#[inline(always)]
fn number(file: &[u8], at: &mut usize) -> Result<u32, u32> {
    let mut value: u64 = 0;
    for group in 0..5 {
        let byte = *file.get(*at).ok_or(29_u32)?;
        *at += 1;
        value |= u64::from(byte & 127) << (7 * group);
        if byte < 128 {
            if (byte == 0 && group > 0) || value > u64::from(u32::MAX) {
                return Err(30);
            }
            return Ok(value as u32);
        }
    }
    Err(30)
}

/// A start or an end.
fn sum(base: u32, number: u32) -> Result<u32, u32> {
    base.checked_add(number).ok_or(31)
}

/// The item that stands at a place, after one that starts at `last`; or the refusal and which of its numbers failed.
#[inline(always)]
fn item(file: &[u8], at: &mut usize, last: u32) -> Result<[u32; WORDS], (u32, usize)> {
    let failed = |which: usize| move |refusal: u32| (refusal, which);
    let kind = number(file, at).map_err(failed(0))?;
    let detail = number(file, at).map_err(failed(1))?;
    let start = number(file, at).and_then(|n| sum(last, n)).map_err(failed(2))?;
    let end = number(file, at).and_then(|n| sum(start, n)).map_err(failed(3))?;
    let from = number(file, at).map_err(failed(4))?;
    let to = number(file, at).and_then(|n| sum(from, n)).map_err(failed(5))?;
    let source = number(file, at).map_err(failed(6))?;
    let text = number(file, at).map_err(failed(7))?;
    let past = number(file, at).and_then(|n| sum(text, n)).map_err(failed(8))?;
    let depth = number(file, at).map_err(failed(9))?;
    Ok([kind, detail, start, end, from, to, source, text, past, depth])
}

/// All items of a file, each handed on; or the refusal and which number of the file failed.
#[inline(always)]
fn items(file: &[u8], mut take: impl FnMut(usize, [u32; WORDS])) -> Result<usize, (u32, usize)> {
    let (mut at, mut last, mut count) = (0, 0, 0);
    while at < file.len() {
        let words = item(file, &mut at, last).map_err(|(refusal, which)| (refusal, count * WORDS + which))?;
        last = words[2];
        take(count, words);
        count += 1;
    }
    Ok(count)
}

#[inline(never)]
pub fn read(file: &[u8], records: &mut [u32]) -> Answer {
    let count = match items(file, |_, _| ()) {
        Ok(count) => count,
        Err((refusal, number)) => return (refusal, number as u64),
    };
    if records.len() / WORDS < count {
        return (22, count as u64);
    }
    let _ = items(file, |i, words| records[i * WORDS..][..WORDS].copy_from_slice(&words));
    (0, count as u64)
}

/// The ten numbers of a record after one that starts at `last`; none if it goes back.
fn numbers(r: &[u32], last: u32) -> Option<[u32; WORDS]> {
    let (start, extent) = (r[2].checked_sub(last)?, r[3].checked_sub(r[2])?);
    let (place, text) = (r[5].checked_sub(r[4])?, r[8].checked_sub(r[7])?);
    Some([r[0], r[1], start, extent, r[4], place, r[6], r[7], text, r[9]])
}

/// How many groups a number takes.
fn groups(mut number: u32) -> usize {
    let mut count = 1;
    while number >= 128 {
        number >>= 7;
        count += 1;
    }
    count
}

#[inline(never)]
pub fn write(records: &[u32], out: &mut [u8]) -> Answer {
    let (mut needed, mut last) = (0, 0);
    for (i, record) in records.chunks_exact(WORDS).enumerate() {
        let Some(numbers) = numbers(record, last) else { return (32, i as u64) };
        for number in numbers {
            needed += groups(number);
        }
        last = record[2];
    }
    if out.len() < needed {
        return (22, needed as u64);
    }
    let (mut at, mut last) = (0, 0);
    for (i, record) in records.chunks_exact(WORDS).enumerate() {
        let Some(numbers) = numbers(record, last) else { return (32, i as u64) };
        for mut number in numbers {
            while number >= 128 {
                out[at] = number as u8 | 128;
                number >>= 7;
                at += 1;
            }
            out[at] = number as u8;
            at += 1;
        }
        last = record[2];
    }
    (0, needed as u64)
}
