//! How often a seed jams by chance, and how large the jam is then: what a reported size can be held
//! against.

use crate::gen::Gen;
use crate::maps;
use std::fmt::Write;

/// Numbers of keys, and how many tables of each are drawn.
const DRAWN: [(usize, usize); 8] = [
    (10, 20_000),
    (30, 20_000),
    (100, 20_000),
    (300, 20_000),
    (1_000, 10_000),
    (2_048, 10_000),
    (8_000, 10_000),
    (32_768, 2_000),
];

/// A line for each number of keys: of the tables drawn, each under a seed of its own, those in which
/// map 1 jams; and the sizes of their largest jams, from the least to the most by quarters.
pub fn text() -> String {
    let mut gen = Gen::new(300);
    let mut text = String::new();
    for (n, tables) in DRAWN {
        let mut draw = || {
            let items: Vec<u64> = (0..n).map(|_| gen.next()).collect();
            maps::largest_jam(&maps::triples(&items, gen.next()), maps::cell_count(n)).len()
        };
        let mut sizes: Vec<usize> = (0..tables).map(|_| draw()).filter(|&size| size > 0).collect();
        sizes.sort();
        write!(text, "keys={n} tables={tables} jams={} sizes=", sizes.len()).unwrap();
        if let Some(last) = sizes.len().checked_sub(1) {
            let quarters = [0, 1, 2, 3, 4].map(|quarter| sizes[last * quarter / 4].to_string());
            text += &quarters.join(",");
        }
        text.push('\n');
    }
    text
}
