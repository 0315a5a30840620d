//! Inputs in the right form that a build refuses for the bucket size or the order of the keys.

use super::valid::{asks, shape};
use super::{case, input, Case};
use crate::gen::Gen;

pub fn cases() -> Vec<Case> {
    let mut gen = Gen::new(300);
    let mut cases = Vec::new();
    let rising = [2, 3, 8];
    for (bucket, refused) in [
        ("0", Some(2)),
        ("1", Some(2)),
        ("2", None),
        ("256", None),
        ("257", Some(2)),
        ("512", Some(2)),
        ("65535", Some(2)),
        ("65536", Some(8)),
        ("65538", Some(8)),
        ("65792", Some(8)),
        ("4294967298", Some(8)),
        ("18446744073709551618", Some(8)),
        ("100000000000000000000000000000000000000000000000002", Some(8)),
        ("02", Some(8)),
        ("00", Some(8)),
        ("0256", Some(8)),
    ] {
        let name: String = bucket.chars().take(20).collect();
        let more = if bucket.len() > 20 { "-and-more-digits" } else { "" };
        cases.push(case(format!("bucket-{name}{more}"), input(bucket, &rising, &[3, 9]), refused));
    }
    cases.push(case("bucket-0-no-keys", input("0", &[], &[]), Some(2)));
    cases.push(case("bucket-1-no-keys", input("1", &[], &[5]), Some(2)));
    cases.push(case("bucket-257-one-key", input("257", &[5], &[5]), Some(2)));

    let long = shape("spread", 300, &mut gen);
    let mut falls_at_end = long.clone();
    falls_at_end.swap(298, 299);
    let mut falls_at_start = long.clone();
    falls_at_start.swap(0, 1);
    let mut repeats_inside = long.clone();
    repeats_inside[150] = repeats_inside[149];
    for (name, keys) in [
        ("two-keys-equal", vec![7, 7]),
        ("two-keys-fall", vec![8, 7]),
        ("two-zeros", vec![0, 0]),
        ("highest-twice", vec![u64::MAX, u64::MAX]),
        ("highest-then-lowest", vec![u64::MAX, 0]),
        ("sign-bit-falls", vec![1 << 63, (1 << 63) - 1]),
        ("last-row-falls", vec![2, 3, 8, 7]),
        ("first-rows-equal", vec![2, 2, 8]),
        ("same-key-apart", vec![2, 8, 2]),
        ("low-half-falls", vec![1 << 32 | 5, 1 << 32 | 4]),
        ("long-falls-at-start", falls_at_start),
        ("long-falls-at-end", falls_at_end),
        ("long-repeats-inside", repeats_inside),
    ] {
        cases.push(case(format!("keys-{name}"), input("2", &keys, &[keys[0]]), Some(3)));
    }
    cases.push(case("keys-fall-no-asks", input("2", &[3, 2], &[]), Some(3)));
    cases.push(case("keys-fall-bucket-1", input("1", &[3, 2], &[3]), Some(2)));
    cases.push(case("keys-equal-bucket-257", input("257", &[3, 3], &[3]), Some(2)));

    // The longest inputs there are: 53,792 bytes with a bucket size of five digits.
    let keys = shape("timetable", 2048, &mut gen);
    let asks = asks(&keys, 512, &mut gen);
    let longest = input("65535", &keys, &asks);
    assert_eq!(longest.len(), 53_792);
    cases.push(case("longest-input", longest.clone(), Some(2)));
    cases.push(case("longest-input-one-byte-more", longest + "\n", Some(8)));
    cases.push(case("full-size-one-byte-more", input("256", &keys, &asks) + "a", Some(8)));
    cases
}
