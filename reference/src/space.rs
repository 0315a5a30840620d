//! What the stores take beside the table, by their named lengths.

use crate::profile::Profile;
use crate::table::MOST_KEYS;
use std::fmt::Write;

const BUCKETS: [usize; 4] = [2, 16, 64, 256];

/// Bits of an entry of stores 1 to 6: numbers of 16 bits, and the lengths, which are bytes.
const BITS: [usize; 6] = [16, 16, 16, 16, 16, 8];

/// Bits a key of some stores, by their numbers, in the largest table.
fn bits_a_key(profile: Profile, stores: &[usize], bucket: usize) -> f64 {
    let named = profile.named(MOST_KEYS, bucket);
    let bits: usize = stores.iter().map(|&store| named[store - 1] * BITS[store - 1]).sum();
    bits as f64 / MOST_KEYS as f64
}

/// Bits a key of the largest table, a column for each bucket size. The row bytes, store 7, are 8 bits
/// a key in both profiles, and stand in no line.
pub fn text() -> String {
    let rows = [
        ("full: call cells (store 1)", Profile::Full, &[1][..]),
        ("full: handle cells (2)", Profile::Full, &[2]),
        ("full: left and right (3, 4)", Profile::Full, &[3, 4]),
        ("full: lengths (6)", Profile::Full, &[6]),
        ("**full**", Profile::Full, &[1, 2, 3, 4, 6]),
        ("slim: offset cells (1)", Profile::Slim, &[1]),
        ("slim: handle cells (2)", Profile::Slim, &[2]),
        ("slim: left and right (3, 4)", Profile::Slim, &[3, 4]),
        ("slim: lengths (6)", Profile::Slim, &[6]),
        ("**slim**", Profile::Slim, &[1, 2, 3, 4, 6]),
        ("lent for the build: work (5), full", Profile::Full, &[5]),
        ("lent for the build: work (5), slim", Profile::Slim, &[5]),
    ];
    let mut text = format!("| bits a key, n = {MOST_KEYS} |");
    for bucket in BUCKETS {
        write!(text, " B = {bucket} |").unwrap();
    }
    text += &format!("\n|{}\n", "---|".repeat(1 + BUCKETS.len()));
    for (name, profile, stores) in rows {
        write!(text, "| {name} |").unwrap();
        for bucket in BUCKETS {
            write!(text, " {:.2} |", bits_a_key(profile, stores, bucket)).unwrap();
        }
        text.push('\n');
    }
    text
}
