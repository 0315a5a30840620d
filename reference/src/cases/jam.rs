//! Inputs whose first seeds, or all seeds, jam.

use super::valid::{asks, shape};
use super::{case, input, jam_case, Case};
use crate::gen::Gen;
use crate::plant::{near_pair, pair, partner, prefix_pair, square};
use crate::rowcheck::{build, build_with};
use crate::{call, full, maps, neighbour, refusal};
use std::ops::Range;

/// The planted keys and others up to n of them, in rising order.
fn table_with(mut planted: Vec<u64>, n: usize, gen: &mut Gen) -> Vec<u64> {
    while planted.len() < n {
        planted.push(gen.next());
    }
    planted.sort();
    planted.dedup();
    assert_eq!(planted.len(), n, "planted keys are all different");
    planted
}

/// The two keys of a bucket that has this item as its prefix: they part where the mark stands.
fn bucket_of(item: u64) -> [u64; 2] {
    let mark = 1 << item.trailing_zeros();
    [item - mark, item]
}

/// Two keys that share the 32 bits of this prefix, which are then the handle of their split.
fn split_of(prefix: u64, gen: &mut Gen) -> [u64; 2] {
    let low = gen.below(1 << 31);
    [prefix + low, prefix + low + 1 + gen.below(1 << 31)]
}

/// Two keys that bring this item into a map; for map 3 it is the prefix. They stay a whole bucket
/// where all keys of the table come in such twos and a bucket has two.
fn two_keys(map: usize, item: u64, gen: &mut Gen) -> [u64; 2] {
    match map {
        1 => [item, item ^ 1],
        2 => bucket_of(item),
        _ => split_of(item, gen),
    }
}

/// How many items a map of n keys has.
fn item_count(map: usize, n: usize, bucket: usize) -> usize {
    match map {
        1 => n,
        2 => call::bucket_count(n, bucket),
        _ => neighbour::handle_count(n),
    }
}

/// A jam of two or four of a map's t items; for map 3 they are prefixes.
fn jam_of(size: usize, map: usize, seed: u64, t: usize, gen: &mut Gen) -> Vec<u64> {
    match (size, map) {
        (2, 3) => prefix_pair(seed, t, gen).to_vec(),
        (2, _) => pair(seed, t, gen),
        (4, 1 | 2) => square(seed, t, gen),
        _ => unreachable!("no jam of {size} items is planted in map {map}"),
    }
}

/// Jams of pairs of keys in map 1.
fn pairs(seeds: impl Iterator<Item = u64>, n: usize, gen: &mut Gen) -> Vec<u64> {
    let planted = seeds.flat_map(|seed| pair(seed, n, gen)).collect();
    table_with(planted, n, gen)
}

/// Jams of four keys in map 1.
fn squares(seeds: Range<u64>, n: usize, gen: &mut Gen) -> Vec<u64> {
    let planted = seeds.flat_map(|seed| square(seed, n, gen)).collect();
    table_with(planted, n, gen)
}

/// One of n keys, and for every seed another that jams with it.
fn star_keys(seeds: impl Iterator<Item = u64>, n: usize, gen: &mut Gen) -> Vec<u64> {
    let centre = gen.next();
    let mut planted = vec![centre];
    planted.extend(seeds.map(|seed| partner(centre, seed, n, gen)));
    planted
}

/// One key that jams with another partner under every seed.
fn star(seeds: Range<u64>, n: usize, gen: &mut Gen) -> Vec<u64> {
    let planted = star_keys(seeds, n, gen);
    table_with(planted, n, gen)
}

/// Pairs that agree in two cells only. They are no jam, however many seeds have them.
fn near_pairs(seeds: Range<u64>, n: usize, gen: &mut Gen) -> Vec<u64> {
    let planted = seeds.flat_map(|seed| near_pair(seed, n, seed as usize % 3, gen)).collect();
    table_with(planted, n, gen)
}

/// Jams in map 2 for buckets of two keys; the table has just the planted keys.
fn in_map_2(seeds: Range<u64>, gen: &mut Gen) -> Vec<u64> {
    let buckets = 2 * seeds.clone().count();
    let items = seeds.flat_map(|seed| pair(seed, buckets, gen)).collect::<Vec<_>>();
    let planted = items.into_iter().flat_map(bucket_of).collect();
    table_with(planted, 2 * buckets, gen)
}

/// Jams in map 3; the table has just the planted keys.
fn in_map_3(seeds: Range<u64>, gen: &mut Gen) -> Vec<u64> {
    let n = 4 * seeds.clone().count();
    let prefixes = seeds.flat_map(|seed| prefix_pair(seed, n - 2, gen)).collect::<Vec<_>>();
    let planted = prefixes.into_iter().flat_map(|prefix| split_of(prefix, gen)).collect();
    table_with(planted, n, gen)
}

/// Jams in all three maps in turn, for buckets of two keys.
/// All keys come in twos, so that the planted buckets stay whole.
fn in_all_maps(seeds: Range<u64>, gen: &mut Gen) -> Vec<u64> {
    let n = 4 * seeds.clone().count();
    let mut planted = Vec::new();
    for seed in seeds {
        let map = 1 + seed as usize % 3;
        for item in jam_of(2, map, seed, item_count(map, n, 2), gen) {
            planted.extend(two_keys(map, item, gen));
        }
    }
    table_with(planted, n, gen)
}

/// A seed, and for each of the maps 1, 2, 3 the sizes of the jams that it has under this seed.
/// The jams of a map touch no common cell, so that its largest jam is all of them together.
type Jams = (u64, [&'static [usize]; 3]);

/// The size that is told of where a seed has these jams: that of the first map that has one.
fn told(sizes: &[&[usize]; 3]) -> usize {
    sizes.iter().find(|sizes| !sizes.is_empty()).map_or(0, |sizes| sizes.iter().sum())
}

/// A table with these jams planted, and under every other seed one of two keys in map 1.
/// With buckets of two all keys come in twos; without them no jam can be planted in map 2.
fn planted_jams(bucket: usize, jams: &[Jams], gen: &mut Gen) -> Vec<u64> {
    let seeds = (0..256).filter(|seed| jams.iter().all(|(planted, _)| planted != seed));
    let [one, two, three] =
        [0, 1, 2].map(|i| jams.iter().flat_map(|(_, sizes)| sizes[i]).sum::<usize>());
    assert!(bucket == 2 || two == 0);
    let alone = if bucket == 2 { 2 } else { 1 };
    let n = alone * (1 + seeds.clone().count() + one) + 2 * (two + three);

    let mut keys = Vec::new();
    let mut add = |map: usize, item: u64, gen: &mut Gen| {
        let needed = if map == 1 { alone } else { 2 };
        keys.extend(&two_keys(map, item, gen)[..needed]);
    };
    for key in star_keys(seeds, n, gen) {
        add(1, key, gen);
    }
    for &(seed, sizes) in jams {
        for map in [1, 2, 3] {
            for &size in sizes[map - 1] {
                for item in jam_of(size, map, seed, item_count(map, n, bucket), gen) {
                    add(map, item, gen);
                }
            }
        }
    }
    table_with(keys, n, gen)
}

/// The sizes of the parts into which the largest jam of a map falls, the smallest first: two items
/// that touch a common cell are in the same part.
fn parts(wanted: &[(u64, u16)], seed: u64) -> Vec<usize> {
    let items = maps::items_of(wanted);
    let triples = maps::triples(&items, seed);
    let mut left = maps::largest_jam(&triples, maps::cell_count(items.len()));
    let mut sizes = Vec::new();
    while let Some(item) = left.pop() {
        let mut part = vec![item];
        let mut next = 0;
        while next < part.len() {
            let cells = triples[part[next]];
            let near = |item: &usize| triples[*item].iter().any(|cell| cells.contains(cell));
            let (joined, apart): (Vec<usize>, Vec<usize>) = left.into_iter().partition(near);
            part.extend(joined);
            left = apart;
            next += 1;
        }
        assert!(maps::is_jam(&part, &triples), "each part alone is a jam");
        sizes.push(part.len());
    }
    sizes.sort();
    sizes
}

/// A table that has just these jams under their seeds. One that jams by chance too is drawn again.
fn drawn_with(bucket: usize, jams: &[Jams], gen: &mut Gen) -> Vec<u64> {
    loop {
        let keys = planted_jams(bucket, jams, gen);
        let maps = full::three_maps(&keys, bucket);
        let alike = |&(seed, sizes): &Jams| (0..3).all(|i| parts(&maps[i], seed) == sizes[i]);
        if jams.iter().all(alike) {
            return keys;
        }
    }
}

/// A table of which under seed 255 every key is in the jam.
fn every_key(n: usize, gen: &mut Gen) -> Vec<u64> {
    let mut keys = star_keys(0..255, n, gen);
    let partners: Vec<u64> = keys.iter().map(|&key| partner(key, 255, n, gen)).collect();
    keys.extend(partners);
    while keys.len() < n {
        keys.extend(pair(255, n, gen));
    }
    table_with(keys, n, gen)
}

type Draw = fn(&mut Gen) -> Vec<u64>;

/// A table from `draw` whose first taken seed is the wanted one.
/// A table that jams by chance too is drawn again.
fn drawn(bucket: usize, seed: u64, gen: &mut Gen, draw: impl Fn(&mut Gen) -> Vec<u64>) -> Vec<u64> {
    loop {
        let keys = draw(gen);
        if build(&keys, bucket).is_ok_and(|built| built.seed == seed) {
            return keys;
        }
    }
}

/// Small tables jam by chance, so each is drawn until just the first seeds jam.
fn chance_jams(cases: &mut Vec<Case>, gen: &mut Gen) {
    let sizes = [2, 3, 4, 5, 8, 11, 13, 17, 24, 40];
    let seeds = [1, 2, 3, 4, 4, 5, 4, 5, 4, 3];
    for (n, seed) in sizes.into_iter().zip(seeds) {
        for name in ["spread", "shared-40-bits"] {
            let keys = drawn(2, seed, gen, |gen| shape(name, n, gen));
            let text = input("2", &keys, &asks(&keys, 16, gen));
            cases.push(case(format!("chance-jam-{name}-{n}-keys-seed-{seed}"), text, None));
        }
    }
    // Each map in turn is the first to jam under seed 0.
    for map in [1, 2, 3] {
        for (n, bucket) in [(9, 2), (20, 3), (50, 2)] {
            let mut keys = Vec::new();
            let first = |keys: &[u64]| build_with(keys, bucket, 0).err().map(|said| said.refusal);
            while first(&keys) != Some(refusal::jam(map)) {
                keys = shape("timetable", n, gen);
            }
            let text = input(&bucket.to_string(), &keys, &asks(&keys, 16, gen));
            cases.push(case(format!("chance-jam-map-{map}-{n}-keys-bucket-{bucket}"), text, None));
        }
    }
}

/// Planted jams that leave a seed. Each row has the bucket size and the seed that is taken.
fn some_seeds_jam(cases: &mut Vec<Case>, gen: &mut Gen) {
    let rows: [(&str, usize, u64, Draw); 17] = [
        ("first-seed-jams-pair-300", 16, 1, |gen| pairs(0..1, 300, gen)),
        ("first-10-seeds-jam-pairs-300", 256, 10, |gen| pairs(0..10, 300, gen)),
        ("first-20-seeds-jam-squares-200", 3, 20, |gen| squares(0..20, 200, gen)),
        ("first-40-seeds-jam-star-120", 16, 40, |gen| star(0..40, 120, gen)),
        ("first-20-seeds-jam-map-2-80", 2, 20, |gen| in_map_2(0..20, gen)),
        ("first-20-seeds-jam-map-3-80", 255, 20, |gen| in_map_3(0..20, gen)),
        ("first-30-seeds-jam-all-maps-120", 2, 30, |gen| in_all_maps(0..30, gen)),
        ("first-100-seeds-jam-pairs-2048", 256, 100, |gen| pairs(0..100, 2048, gen)),
        ("first-127-seeds-jam-star-300", 16, 127, |gen| star(0..127, 300, gen)),
        ("first-128-seeds-jam-star-300", 16, 128, |gen| star(0..128, 300, gen)),
        ("first-255-seeds-jam-pairs-510", 256, 255, |gen| pairs(0..255, 510, gen)),
        ("first-255-seeds-jam-star-256", 3, 255, |gen| star(0..255, 256, gen)),
        ("first-255-seeds-jam-map-2-1020", 2, 255, |gen| in_map_2(0..255, gen)),
        ("first-255-seeds-jam-map-3-1020", 256, 255, |gen| in_map_3(0..255, gen)),
        ("all-but-seed-0-jam-pairs-510", 16, 0, |gen| pairs(1..256, 510, gen)),
        ("all-but-seed-127-jam-pairs-510", 16, 127, |gen| {
            pairs((0..256).filter(|&seed| seed != 127), 510, gen)
        }),
        ("near-jams-under-all-seeds-512", 16, 0, |gen| near_pairs(0..256, 512, gen)),
    ];
    for (name, bucket, seed, draw) in rows {
        let keys = drawn(bucket, seed, gen, draw);
        let text = input(&bucket.to_string(), &keys, &asks(&keys, 12, gen));
        cases.push(case(name, text, None));
    }
}

/// Each row has the size that is told of: that of the planted jam, or more where others came by
/// chance.
fn all_seeds_jam(cases: &mut Vec<Case>, gen: &mut Gen) {
    let rows: [(&str, &str, usize, Draw); 8] = [
        ("all-seeds-jam-512", "2", 2, |gen| pairs(0..256, 512, gen)),
        ("all-seeds-jam-600", "256", 2, |gen| pairs(0..256, 600, gen)),
        ("all-seeds-jam-star-257", "16", 4, |gen| star(0..256, 257, gen)),
        ("all-seeds-jam-star-400", "3", 2, |gen| star(0..256, 400, gen)),
        ("all-seeds-jam-squares-1024", "255", 4, |gen| squares(0..256, 1024, gen)),
        ("all-seeds-jam-map-2-1024", "2", 2, |gen| in_map_2(0..256, gen)),
        ("all-seeds-jam-map-3-1024", "256", 2, |gen| in_map_3(0..256, gen)),
        ("all-seeds-jam-all-maps-1024", "2", 2, |gen| in_all_maps(0..256, gen)),
    ];
    for (name, bucket, jammed, draw) in rows {
        let keys = draw(gen);
        let asks = asks(&keys, 4, gen);
        cases.push(jam_case(name, input(bucket, &keys, &asks), jammed));
    }
    // The refusals that go before a jam.
    let mut keys = star(0..256, 257, gen);
    cases.push(jam_case("all-seeds-jam-no-asks", input("16", &keys, &[]), 68));
    cases.push(case("all-seeds-jam-bad-bucket", input("257", &keys, &[]), Some(2)));
    cases.push(case("all-seeds-jam-bad-last-byte", input("16", &keys, &[1]) + " ", Some(8)));
    keys.swap(255, 256);
    cases.push(case("all-seeds-jam-keys-fall", input("16", &keys, &[]), Some(3)));
}

/// Which jam is told of: that of seed 255, of the first map that jams under it, and all of it.
/// Seeds that are named before 255 have jams of other sizes.
fn sizes_told(cases: &mut Vec<Case>, gen: &mut Gen) {
    let rows: [(&str, usize, &[Jams]); 12] = [
        (
            "seed-0-more",
            16,
            &[(0, [&[2, 4], &[], &[]]), (254, [&[4], &[], &[]]), (255, [&[2], &[], &[]])],
        ),
        (
            "seed-0-less",
            3,
            &[(0, [&[2], &[], &[]]), (254, [&[2, 4], &[], &[]]), (255, [&[4], &[], &[]])],
        ),
        // More jams than one.
        ("two-pairs", 256, &[(255, [&[2, 2], &[], &[]])]),
        ("pair-and-square", 255, &[(255, [&[2, 4], &[], &[]])]),
        ("pair-and-two-squares", 16, &[(255, [&[2, 4, 4], &[], &[]])]),
        // Another map than under the seed before.
        ("map-1-then-2", 2, &[(254, [&[4], &[], &[]]), (255, [&[], &[2], &[]])]),
        ("map-1-then-3", 16, &[(254, [&[2], &[], &[]]), (255, [&[], &[], &[2, 2]])]),
        ("map-2-then-3", 2, &[(254, [&[], &[2, 4], &[]]), (255, [&[], &[], &[2]])]),
        // More maps than one.
        ("map-1-less-than-2", 2, &[(255, [&[2], &[4], &[]])]),
        ("map-1-more-than-2", 2, &[(255, [&[4], &[2], &[]])]),
        ("map-2-less-than-3", 2, &[(255, [&[], &[2], &[2, 2]])]),
        ("maps-1-2-3", 2, &[(255, [&[4], &[2], &[2, 2, 2]])]),
    ];
    for (name, bucket, jams) in rows {
        let keys = drawn_with(bucket, jams, gen);
        let ((last, sizes), before) = jams.split_last().unwrap();
        assert_eq!(*last, 255);
        for (seed, other) in before {
            assert_ne!(told(other), told(sizes), "{name}: seed {seed} tells of another size");
            assert_eq!(full::jammed(&build_with(&keys, bucket, *seed)), told(other), "{name}");
        }
        let text = input(&bucket.to_string(), &keys, &asks(&keys, 2, gen));
        let name = format!("all-seeds-jam-{name}-{}", keys.len());
        cases.push(jam_case(name, text, told(sizes)));
    }
    for (n, bucket) in [(512, "3"), (2048, "256")] {
        let text = input(bucket, &every_key(n, gen), &[]);
        cases.push(jam_case(format!("all-seeds-jam-every-key-{n}"), text, n));
    }
}

pub fn cases() -> Vec<Case> {
    let mut gen = Gen::new(200);
    let mut cases = Vec::new();
    chance_jams(&mut cases, &mut gen);
    some_seeds_jam(&mut cases, &mut gen);
    all_seeds_jam(&mut cases, &mut gen);
    // A generator of their own leaves the cases before them as they are.
    sizes_told(&mut cases, &mut Gen::new(201));
    cases
}
