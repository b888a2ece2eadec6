//! Families of texts, each the same for the same seed.

/// What bounds a family: a seed and a count for the random ones, a length for the listed one.
pub struct Limits {
    pub seed: u64,
    pub count: u64,
    pub bytes: usize,
}

/// What a text is handed to.
type Take<'a> = &'a mut dyn FnMut(&[u8]);

pub struct Family {
    pub name: &'static str,
    pub texts: fn(&Limits, Take),
}

pub static FAMILIES: [Family; 6] = [
    Family { name: "listed", texts: listed },
    Family { name: "decimals", texts: decimals },
    Family { name: "ties", texts: ties },
    Family { name: "largest", texts: largest },
    Family { name: "zeros", texts: zeros },
    Family { name: "damaged", texts: damaged },
];

pub fn names() -> Vec<&'static str> {
    FAMILIES.iter().map(|family| family.name).collect()
}

pub fn named(name: &str) -> Option<&'static Family> {
    FAMILIES.iter().find(|family| family.name == name)
}

/// The bytes of the listed texts: those that a decimal has, and two that none has.
const ALPHABET: &[u8] = b"0159.eE+-#i";

/// 2^53.
const MOST_DIGITS: u64 = 9_007_199_254_740_992;

/// A run of zeros is at most so long.
const LONG_RUN: u64 = 3_000;

/// Xorshift: enough to spread texts, and the same everywhere.
struct Random(u64);

impl Random {
    fn new(limits: &Limits, family: u64) -> Self {
        Self((limits.seed << 8 | family).wrapping_mul(0x9E37_79B9_7F4A_7C15) | 1)
    }

    fn next(&mut self) -> u64 {
        self.0 ^= self.0 << 13;
        self.0 ^= self.0 >> 7;
        self.0 ^= self.0 << 17;
        self.0.wrapping_mul(0x2545_F491_4F6C_DD1D)
    }

    fn below(&mut self, bound: u64) -> u64 {
        (self.next() >> 11) % bound
    }

    fn sign(&mut self) -> &'static str {
        ["", "", "-", "+"][self.below(4) as usize]
    }

    fn digits(&mut self, most: u64) -> String {
        (0..self.below(most + 1)).map(|_| char::from(b'0' + self.below(10) as u8)).collect()
    }

    /// An exponent from about -most to most, or none.
    fn exponent(&mut self, most: u64) -> String {
        match self.below(3) {
            0 => String::new(),
            1 => format!("e{}{}", self.sign(), self.below(most + 1)),
            _ => format!("E{}{:03}", self.sign(), self.below(most + 1)),
        }
    }
}

/// Every text of the alphabet up to a length.
fn listed(limits: &Limits, take: Take) {
    for length in 0..=limits.bytes {
        let mut at = vec![0; length];
        loop {
            let text: Vec<u8> = at.iter().map(|&place: &usize| ALPHABET[place]).collect();
            take(&text);
            let Some(last) = at.iter().rposition(|&place| place + 1 < ALPHABET.len()) else { break };
            at[last] += 1;
            at[last + 1..].fill(0);
        }
    }
}

/// Decimals of up to 17 digits before the dot and behind it, and exponents about the bounds.
fn decimals(limits: &Limits, take: Take) {
    let mut random = Random::new(limits, 1);
    for _ in 0..limits.count {
        let (most, dot) = (1 + random.below(17), ["", ".", "."][random.below(3) as usize]);
        let fraction = if dot.is_empty() { String::new() } else { random.digits(18 - most) };
        take(format!("{}{}{dot}{fraction}{}", random.sign(), random.digits(most), random.exponent(45)).as_bytes());
    }
}

/// Whole numbers half way between two floats: of an odd m for which m * 5^k has 54 binary digits, m * 10^k is one. With an even m it is a
/// float. And fractions that are floats, m being a multiple of 5^k, or next to one.
fn ties(limits: &Limits, take: Take) {
    let mut random = Random::new(limits, 2);
    for _ in 0..limits.count {
        let k = 1 + random.below(4) as u32;
        let five = 5u64.pow(k);
        let m = (MOST_DIGITS + random.below(MOST_DIGITS)) / five;
        take(format!("{}{m}e{k}", random.sign()).as_bytes());
        let m = random.below(MOST_DIGITS / five) * five + random.below(2);
        take(format!("{}{m}e-{k}", random.sign()).as_bytes());
    }
}

/// Whole numbers just about 2^53, with a dot anywhere and any exponent about the bounds.
fn largest(limits: &Limits, take: Take) {
    let mut random = Random::new(limits, 3);
    for _ in 0..limits.count {
        let digits =
            format!("{:0width$}", MOST_DIGITS - 500 + random.below(1_000), width = 16 + random.below(8) as usize);
        let (whole, fraction) = digits.split_at(random.below(digits.len() as u64 + 1) as usize);
        take(format!("{}{whole}.{fraction}{}", random.sign(), random.exponent(45)).as_bytes());
    }
}

/// Long runs of zeros before the digits, behind the dot and in the exponent, which leave s within its bounds or just outside.
fn zeros(limits: &Limits, take: Take) {
    let mut random = Random::new(limits, 4);
    for _ in 0..limits.count.div_ceil(30) {
        let (front, behind) = (random.below(LONG_RUN) as usize, random.below(LONG_RUN) as usize);
        let exponent = behind as i64 + random.below(60) as i64 - 30;
        let text = format!("{:0>front$}.{:0>behind$}{}e{exponent:+05}", random.digits(3), "", random.digits(3));
        take(text.as_bytes());
    }
}

/// Decimals with one byte changed, added or taken away; many are not UTF-8.
fn damaged(limits: &Limits, take: Take) {
    let mut random = Random::new(limits, 5);
    for _ in 0..limits.count {
        let mut text =
            format!("{}{}.{}{}", random.sign(), random.digits(7), random.digits(4), random.exponent(30)).into_bytes();
        let (at, byte) = (random.below(text.len() as u64) as usize, random.below(256) as u8);
        match random.below(3) {
            0 => text[at] = byte,
            1 => text.insert(at, byte),
            _ => {
                text.remove(at);
            }
        }
        take(&text);
    }
}

/// A text of the largest length, a decimal with zeros in front, and one that is a byte too long.
pub fn huge(take: Take) {
    let mut text = vec![b'0'; 4_294_967_295];
    let end = text.len() - 3;
    text[end..].copy_from_slice(b"1.5");
    take(&text);
    text.push(b'0');
    take(&text);
}
