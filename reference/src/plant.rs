//! Keys that jam under a chosen seed. Mix can be undone, so a key can be found for any hash.

use crate::bits::prefix_item;
use crate::gen::Gen;
use crate::maps::{segment, touched};
use crate::mix::{mix, FACTOR_1, FACTOR_2, STEP};
use std::collections::HashMap;

/// Undoes z xor z/2^shift: each round makes `shift` more of the leading bits right.
fn unshift(mixed: u64, shift: u32) -> u64 {
    let mut z = mixed;
    for _ in 0..64 / shift {
        z = mixed ^ (z >> shift);
    }
    z
}

/// The number whose product with an odd factor is 1. Each round doubles the right low bits.
fn inverse(factor: u64) -> u64 {
    let mut inverse = factor;
    for _ in 0..6 {
        inverse = inverse.wrapping_mul(2u64.wrapping_sub(factor.wrapping_mul(inverse)));
    }
    inverse
}

pub fn unmix(z: u64) -> u64 {
    let z = unshift(z, 31).wrapping_mul(inverse(FACTOR_2));
    let z = unshift(z, 27).wrapping_mul(inverse(FACTOR_1));
    unshift(z, 30)
}

/// The item that has this hash under this seed.
pub fn item_of(hash: u64, seed: u64) -> u64 {
    unmix(hash).wrapping_sub(mix(seed.wrapping_add(STEP)))
}

/// Some item of a map of t that touches the given places of the three segments.
fn item_at(places: [u64; 3], seed: u64, t: usize, gen: &mut Gen) -> u64 {
    let m = segment(t) as u64;
    // The hash is put together from the top. Each part of `bits` bits is chosen so that the number
    // made of it and all above it leaves the wanted rest.
    let mut part = |above: u64, bits: u32, place: u64| {
        let carried = (u128::from(above) << bits) % u128::from(m);
        let rest = (place + m - carried as u64) % m;
        (above << bits) + rest + m * gen.below(((1 << bits) - rest) / m)
    };
    let top = part(0, 22, places[2]);
    let middle = part(top, 21, places[1]);
    let hash = part(middle, 21, places[0]);
    item_of(hash, seed)
}

fn places(t: usize, gen: &mut Gen) -> [u64; 3] {
    [0; 3].map(|_| gen.below(segment(t) as u64))
}

/// Two items that touch the same three cells.
pub fn pair(seed: u64, t: usize, gen: &mut Gen) -> Vec<u64> {
    let places = places(t, gen);
    (0..2).map(|_| item_at(places, seed, t, gen)).collect()
}

/// An item that touches the same three cells as a given one.
pub fn partner(item: u64, seed: u64, t: usize, gen: &mut Gen) -> u64 {
    let m = segment(t);
    let cells = touched(item, seed, t);
    item_at([0, 1, 2].map(|i| (cells[i] - i * m) as u64), seed, t, gen)
}

/// Four items that jam together though no two of them touch more than one common cell.
pub fn square(seed: u64, t: usize, gen: &mut Gen) -> Vec<u64> {
    let m = segment(t) as u64;
    let [a, b, c] = places(t, gen);
    let [d, e, f] = [(a + 1) % m, (b + 1) % m, (c + 1) % m];
    [[a, b, c], [a, e, f], [d, b, f], [d, e, c]]
        .into_iter()
        .map(|places| item_at(places, seed, t, gen))
        .collect()
}

/// Two items that touch two common cells and differ in segment `apart`, so they do not jam.
pub fn near_pair(seed: u64, t: usize, apart: usize, gen: &mut Gen) -> Vec<u64> {
    let first = places(t, gen);
    let mut second = first;
    second[apart] = (second[apart] + 1) % segment(t) as u64;
    vec![item_at(first, seed, t, gen), item_at(second, seed, t, gen)]
}

/// Two 32-bit prefixes whose items touch the same three cells.
/// The end of such an item is fixed, so mix cannot be undone for it and a search has to do.
pub fn prefix_pair(seed: u64, t: usize, gen: &mut Gen) -> [u64; 2] {
    let mut seen = HashMap::new();
    loop {
        let key = gen.next() >> 32 << 32;
        if let Some(other) = seen.insert(touched(prefix_item(key, 32), seed, t), key) {
            if other != key {
                return [other, key];
            }
        }
    }
}
