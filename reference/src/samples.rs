//! The tables of the vectors and the eleven-key table.

use crate::mix::mix;

/// The first n keys of a table of docs/VECTORS.md.
pub fn table(name: &str, n: usize) -> Vec<u64> {
    match name {
        "sequential" => by_rule(n, 0x0001000200018000, 1, 1, 0, 1),
        "spread" => by_rule(n, 0, 1, 1 << 49, 0, 1 << 49),
        "clustered" => by_rule(n, 0x0001000000000000, 16, 1 << 32, 32_768, 32_768),
        "bits" => single_bits().into_iter().take(n).collect(),
        _ => unreachable!("no table is called {name}"),
    }
}

fn by_rule(n: usize, start: u64, group: u64, leap: u64, step: u64, spread: u64) -> Vec<u64> {
    // Only the last of 32,769 spread keys passes 2^64.
    let key = |i: u64| {
        let leaps = (i / group).wrapping_mul(leap);
        start.wrapping_add(leaps).wrapping_add((i % group) * step + mix(i) % spread)
    };
    (0..n as u64).map(key).collect()
}

/// 0, then every key with a single 1 bit.
pub fn single_bits() -> Vec<u64> {
    let mut keys = vec![0];
    keys.extend((0..64).map(|i| 1 << i));
    keys
}

pub fn eleven_keys() -> Vec<u64> {
    [
        "0001001000000",
        "0010010101100",
        "0010010101110",
        "0010011000000",
        "0010011001000",
        "0010011010010",
        "0010011010100",
        "0010011010101",
        "0010011010110",
        "0010011110110",
        "0100100010000",
    ]
    .iter()
    .map(|text| u64::from_str_radix(text, 2).unwrap() << (64 - 13))
    .collect()
}
