//! Bytes that are broken in one place.

use crate::random::Random;

/// Bytes of a grammar, and where numbers stand among them: their places and how many bytes they take.
#[derive(Default)]
pub struct Drawn {
    pub bytes: Vec<u8>,
    pub numbers: Vec<(usize, usize)>,
    /// Whether numbers are decimal digits. Else they are big-endian.
    pub decimal: bool,
}

impl Drawn {
    /// Text, in which each run of digits is a number.
    pub fn text(bytes: Vec<u8>) -> Drawn {
        let mut numbers: Vec<(usize, usize)> = Vec::new();
        for (at, _) in bytes.iter().enumerate().filter(|(_, byte)| byte.is_ascii_digit()) {
            match numbers.last_mut() {
                Some((start, len)) if *start + *len == at => *len += 1,
                _ => numbers.push((at, 1)),
            }
        }
        Drawn { bytes, numbers, decimal: true }
    }
}

/// Numbers at the limits of the formats.
const EDGES: &[u64] = &[
    0, 1, 2, 7, 8, 9, 10, 13, 14, 15, 16, 17, 64, 65, 249, 250, 251, 255, 256, 4095, 4096, 65_534, 65_535, 65_536, 65_537, 99_999, 100_000, 100_001, 999_999,
    1_000_000, 1_000_001, 1_048_575, 1_048_576, 1_048_577, 2_199_999, 2_200_000, 2_200_001, 4_000_000, 4_000_001, 4_294_967_295, 4_294_967_296,
    999_999_999_999, 1_000_000_000_000, 1_000_000_000_001, 281_474_976_710_655, 281_474_976_710_656, u64::MAX - 1, u64::MAX,
];

/// How decimal numbers are spelled that pass every limit, or are none.
const SPELLED: &[&str] = &[
    "18446744073709551616", "18446744073709551617", "99999999999999999999", "100000000000000000000", "00000000000000000000", "000000000000000000000",
    "00000000000000000001", "", "-", "+", "-1", "+1", "-0", "1.0", "0x1", "1e3", " ", "1_000",
];

pub const BREAKS: [&str; 9] = ["whole", "changed", "dropped", "added", "doubled", "exchanged", "cut short", "followed", "number"];

fn spelled(random: &mut Random, number: &[u8]) -> Vec<u8> {
    let value: u64 = String::from_utf8_lossy(number).parse().unwrap_or(0);
    match random.below(8) {
        0 | 1 => random.pick(SPELLED).as_bytes().to_vec(),
        2 => [b"0", number].concat(),
        3 => value.wrapping_add(1).to_string().into_bytes(),
        4 => value.wrapping_sub(1).to_string().into_bytes(),
        _ => EDGES[random.below(EDGES.len())].to_string().into_bytes(),
    }
}

fn packed(random: &mut Random, number: &[u8]) -> Vec<u8> {
    let value = number.iter().fold(0u64, |value, byte| value << 8 | u64::from(*byte));
    let value = match random.below(6) {
        0 => value.wrapping_add(1),
        1 => value.wrapping_sub(1),
        2 => value ^ 1 << random.below(8 * number.len()),
        _ => EDGES[random.below(EDGES.len())],
    };
    value.to_be_bytes()[8 - number.len()..].to_vec()
}

/// Breaks the bytes in one place, or leaves them whole, and answers how, as a place in `BREAKS`.
pub fn broken(random: &mut Random, drawn: Drawn) -> (usize, Vec<u8>) {
    let Drawn { mut bytes, numbers, decimal } = drawn;
    // one in three is left whole, or has another number
    let how = match random.below(BREAKS.len() + 4) {
        how if how < BREAKS.len() => how,
        how if how < BREAKS.len() + 2 => 0,
        _ => BREAKS.len() - 1,
    };
    let at = if bytes.is_empty() { 0 } else { random.below(bytes.len()) };
    match BREAKS[how] {
        "changed" if !bytes.is_empty() => {
            bytes[at] = match random.below(4) {
                0 => bytes[at].wrapping_add(1),
                1 => bytes[at] ^ 1 << random.below(8),
                _ => random.byte(),
            }
        }
        "dropped" if !bytes.is_empty() => drop(bytes.remove(at)),
        "added" => bytes.insert(random.below(bytes.len() + 1), random.byte()),
        "doubled" if !bytes.is_empty() => bytes.insert(at, bytes[at]),
        "exchanged" if bytes.len() > 1 => {
            let first = random.below(bytes.len() - 1);
            bytes.swap(first, first + 1);
        }
        "cut short" => bytes.truncate(at),
        "followed" => {
            for _ in 0..1 + random.below(4) {
                bytes.push(random.byte());
            }
        }
        "number" if !numbers.is_empty() => {
            let (start, len) = numbers[random.below(numbers.len())];
            let number = &bytes[start..start + len];
            let other = if decimal { spelled(random, number) } else { packed(random, number) };
            bytes.splice(start..start + len, other);
        }
        _ => return (0, bytes),
    }
    (how, bytes)
}
