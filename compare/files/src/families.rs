//! Record lists and files: random, right and damaged.
use gen::Random;

/// A number of any length in bits, short ones as often as long ones.
fn number(random: &mut Random) -> u32 {
    let bits = random.below(33) as u32;
    (random.next() as u32).checked_shr(32 - bits).unwrap_or(0)
}

/// Up to three records, mostly ones that do not go back, and now and then words left over.
pub fn records(random: &mut Random) -> Vec<u32> {
    let mut words: Vec<u32> = Vec::new();
    let mut last = 0_u32;
    for _ in 0..random.below(4) {
        let mut record: Vec<u32> = (0..10).map(|_| number(random)).collect();
        if random.below(8) != 0 {
            record[2] = last.saturating_add(record[2] >> 8);
            for end in [3, 5, 8] {
                record[end] = record[end - 1].saturating_add(record[end] >> 4);
            }
        }
        last = record[2];
        words.append(&mut record);
    }
    words.extend((0..random.below(3)).map(|_| number(random)));
    words
}

/// Bytes that are mostly small, as the groups of a file are.
pub fn bytes(random: &mut Random) -> Vec<u8> {
    let count = random.below(40);
    (0..count).map(|_| if random.below(3) == 0 { random.next() as u8 } else { random.below(4) as u8 }).collect()
}

/// A file with a byte changed, lost or added, or with its end cut off.
pub fn damaged(file: &[u8], random: &mut Random) -> Vec<u8> {
    let mut file = file.to_vec();
    let at = random.below(file.len() + 1);
    let byte = [0, 1, 127, 128, 255, random.next() as u8][random.below(6)];
    match random.below(4) {
        0 if at < file.len() => file[at] = byte,
        1 if at < file.len() => drop(file.remove(at)),
        2 => file.insert(at, byte),
        _ => file.truncate(at),
    }
    file
}
