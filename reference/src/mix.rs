//! The mixing step of SplitMix64 and the hash of an item.

pub const STEP: u64 = 0x9E3779B97F4A7C15;
pub const FACTOR_1: u64 = 0xBF58476D1CE4E5B9;
pub const FACTOR_2: u64 = 0x94D049BB133111EB;

pub fn mix(z: u64) -> u64 {
    let z = (z ^ (z >> 30)).wrapping_mul(FACTOR_1);
    let z = (z ^ (z >> 27)).wrapping_mul(FACTOR_2);
    z ^ (z >> 31)
}

pub fn item_hash(item: u64, seed: u64) -> u64 {
    mix(item.wrapping_add(mix(seed.wrapping_add(STEP))))
}
