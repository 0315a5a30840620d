//! Inputs that are answered.

use super::{case, input, Case};
use crate::gen::Gen;
use crate::keys::{pack, Fields};
use crate::samples::{eleven_keys, single_bits};

const BUCKETS: [usize; 5] = [2, 3, 16, 255, 256];

const SHAPES: [&str; 12] = [
    "sequential",
    "clustered",
    "spread",
    "single-bits",
    "low-ones",
    "high-ones",
    "two-ends",
    "around-middle",
    "shared-40-bits",
    "shared-56-bits",
    "pairs",
    "timetable",
];

/// n rising keys of a shape.
pub fn shape(name: &str, n: usize, gen: &mut Gen) -> Vec<u64> {
    let count = n as u64;
    match name {
        "sequential" => {
            let start = gen.next() >> 1;
            (start..start + count).collect()
        }
        "clustered" => {
            let centres: Vec<u64> = (0..1 + n / 10).map(|_| gen.next() >> 8 << 8).collect();
            gen.rising(n, |gen| centres[gen.below(centres.len() as u64) as usize] + gen.below(256))
        }
        "spread" => gen.rising(n, Gen::next),
        "single-bits" => single_bits().into_iter().take(n).collect(),
        "low-ones" => (0..n).map(|i| (1 << i) - 1).collect(),
        "high-ones" => (0..n as u32).map(|i| !(u64::MAX >> i)).collect(),
        "two-ends" => {
            (0..count / 2).chain((0..count - count / 2).rev().map(|i| u64::MAX - i)).collect()
        }
        "around-middle" => ((1 << 63) - count / 2..).take(n).collect(),
        "shared-40-bits" => {
            let start = gen.next() >> 24 << 24;
            gen.rising(n, |gen| start + gen.below(1 << 24))
        }
        "shared-56-bits" => {
            let start = gen.next() >> 8 << 8;
            gen.rising(n, |gen| start + gen.below(1 << 8))
        }
        "pairs" => {
            let mut keys = gen.rising(n.div_ceil(2), |gen| gen.next() | 1);
            keys = keys.into_iter().flat_map(|key| [key - 1, key]).collect();
            keys.truncate(n);
            keys
        }
        "timetable" => timetable(n, gen),
        _ => unreachable!("no shape is called {name}"),
    }
}

/// Calls of one day: 24 blocks in turn, at each stop every ten minutes from 03:30 on.
fn timetable(n: usize, gen: &mut Gen) -> Vec<u64> {
    let day = 20_000 + gen.below(1000) as u32;
    gen.rising(n, |gen| {
        let stop = 100 + gen.below(40) as u32;
        let run = gen.below(118) as u32;
        let second = 12_600 + 600 * run + 73 * (stop % 40) % 600;
        let block = 200 + run % 24;
        pack(Fields { day, stop, second, block }).expect("the fields of a plan fit")
    })
}

/// The Quarry Lane case, which is also the example: a plan of five trams at three stops, the last tram after midnight.
/// Asked are its calls at Quarry Lane, and trams that stand in the siding there with their doors open.
fn quarry_lane() -> (Vec<u64>, Vec<u64>) {
    let at = |hour: u32, minute: u32| (60 * hour + minute) * 60;
    let key = |stop, second, block| {
        pack(Fields { day: 20_411, stop, second, block }).expect("the fields of a plan fit")
    };
    // The second at which each block leaves stop 16; it calls at 17, Quarry Lane, and at 18, 95 seconds apart.
    let trams =
        [(201, at(5, 30)), (202, at(5, 40)), (203, at(5, 50)), (204, at(6, 0)), (205, at(24, 40))];
    let calls = |stop| trams.map(|(block, start)| key(stop, start + 95 * (stop - 16), block));
    let stabled = [
        key(17, at(3, 30), 299),
        key(17, at(3, 45), 298),
        // At the very second of a planned call, and after the last one.
        key(17, at(5, 40) + 95, 299),
        key(17, at(25, 15), 298),
    ];
    ([calls(16), calls(17), calls(18)].concat(), [&calls(17)[..], &stabled].concat())
}

/// Asks at, below and above rows, near them and far from them, cut to a number of asks.
pub fn asks(keys: &[u64], count: usize, gen: &mut Gen) -> Vec<u64> {
    let mut asks = vec![0, u64::MAX, 1 << 63];
    if let (Some(&first), Some(&last)) = (keys.first(), keys.last()) {
        for key in [first, last] {
            asks.extend([key, key.wrapping_sub(1), key.wrapping_add(1)]);
        }
    }
    while asks.len() < count {
        asks.push(gen.next());
        if !keys.is_empty() {
            let key = keys[gen.below(keys.len() as u64) as usize];
            asks.extend([key, key.wrapping_sub(1), key.wrapping_add(1)]);
            asks.push(key ^ (1 << gen.below(64)));
        }
    }
    asks.truncate(count);
    asks
}

pub fn cases() -> Vec<Case> {
    let mut gen = Gen::new(100);
    let mut cases = Vec::new();
    let mut add = |name: String, bucket: usize, keys: &[u64], asks: &[u64]| {
        cases.push(case(name, input(&bucket.to_string(), keys, asks), None));
    };

    add("document-example".into(), 2, &[2, 3, 8], &[3, 9, 16, 0]);
    add("document-example-no-asks".into(), 2, &[2, 3, 8], &[]);
    let (planned, events) = quarry_lane();
    add("quarry-lane".into(), 4, &planned, &events);
    for bucket in BUCKETS {
        let keys = eleven_keys();
        let mut around = keys.clone();
        around.extend(asks(&keys, 40, &mut gen));
        add(format!("eleven-keys-bucket-{bucket}"), bucket, &keys, &around);
    }

    add("no-keys-no-asks".into(), 2, &[], &[]);
    add("no-keys-some-asks".into(), 256, &[], &[0, 1, 1 << 63, u64::MAX]);
    add("no-keys-512-asks".into(), 3, &[], &asks(&[], 512, &mut gen));
    for (name, key) in [
        ("lowest", 0),
        ("one", 1),
        ("middle", 1 << 63),
        ("highest", u64::MAX),
        ("call", 0x0001000200018004),
    ] {
        let bucket = if key == 0 { 2 } else { 256 };
        add(format!("one-key-{name}"), bucket, &[key], &asks(&[key], 12, &mut gen));
    }
    add("one-key-no-asks".into(), 16, &[7], &[]);
    add("one-key-512-asks".into(), 16, &[1 << 40], &asks(&[1 << 40], 512, &mut gen));
    add("same-ask-again".into(), 2, &[4, 9, 12], &[9, 9, 10, 10, 9]);
    for (name, keys) in [
        ("share-no-bit", vec![(1 << 63) - 1, 1 << 63]),
        ("share-63-bits-lowest", vec![0, 1]),
        ("share-63-bits-highest", vec![u64::MAX - 1, u64::MAX]),
        ("lowest-and-highest", vec![0, u64::MAX]),
        ("share-31-bits", vec![4 << 32, 5 << 32 | 9]),
        ("share-32-bits", vec![6 << 32, 6 << 32 | 1 << 31]),
        ("0-2-3", vec![0, 2, 3]),
        ("0-1-2", vec![0, 1, 2]),
        ("0-1-3", vec![0, 1, 3]),
        ("4-5-6-7-8", vec![4, 5, 6, 7, 8]),
        ("lowest-two-and-highest", vec![0, 1, u64::MAX]),
        ("lowest-and-highest-two", vec![0, u64::MAX - 1, u64::MAX]),
    ] {
        add(format!("few-keys-{name}"), 2, &keys, &asks(&keys, 24, &mut gen));
    }

    // The bucket sizes take turns, so that each shape and each number of keys meets several.
    for (i, name) in SHAPES.iter().enumerate() {
        for (j, n) in [2, 5, 20, 64].into_iter().enumerate() {
            let bucket = BUCKETS[(i + j) % BUCKETS.len()];
            let keys = shape(name, n, &mut gen);
            let asks = asks(&keys, 30, &mut gen);
            add(format!("{name}-{n}-keys-bucket-{bucket}"), bucket, &keys, &asks);
        }
    }
    // Whole and broken last buckets, those of one key among them.
    for (i, bucket) in BUCKETS.into_iter().enumerate() {
        for (j, n) in
            [bucket - 1, bucket, bucket + 1, 2 * bucket, 2 * bucket + 1].into_iter().enumerate()
        {
            let name = ["spread", "clustered", "timetable"][(i + j) % 3];
            let keys = shape(name, n, &mut gen);
            let asks = asks(&keys, 16, &mut gen);
            add(format!("last-bucket-{bucket}-of-{n}-{name}"), bucket, &keys, &asks);
        }
    }
    for (name, bucket) in [("spread", 256), ("timetable", 2), ("clustered", 16)] {
        let keys = shape(name, 2048, &mut gen);
        let asks = asks(&keys, 512, &mut gen);
        add(format!("full-size-{name}-bucket-{bucket}"), bucket, &keys, &asks);
    }
    cases
}
