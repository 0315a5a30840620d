//! Checks of the slim profile. What its build refuses and leaves is checked with the full one's.

use super::{asks, deep_table, refused, row_byte, searched, too_many};
use crate::bits::shared_bits;
use crate::call::Outcome;
use crate::full::Stores;
use crate::gen::Gen;
use crate::neighbour::{self, Wanted};
use crate::profile::{Built, Profile};
use crate::reads::{self, Source};
use crate::refusal::{jam, BuildRefusal, Refusal};
use crate::{maps, samples, slim, table, vectors};
use std::collections::{BTreeMap, BTreeSet};

fn built(keys: &[u64], bucket: usize) -> Built {
    Profile::Slim.built(keys, bucket).unwrap()
}

/// Two tables of document 01, worked by hand.
pub fn by_hand() -> usize {
    let mut checks = 0;
    let mut told = |keys: &[u64], bucket, x, outcome, before, probed: &[u32], stands| {
        let Built { seed, stores } = built(keys, bucket);
        let answer = slim::ask(keys, &vec![0; keys.len()], bucket, [seed; 2], &stores, x);
        let near = neighbour::Answer { before, probed: probed.to_vec(), stands };
        assert_eq!(answer, Ok(slim::Answer { outcome, near }), "{x}");
        checks += 1;
    };

    // By twos the delimiters are 3 and 8: one split, of 60 bits, and no handles.
    let keys = [2, 3, 8];
    told(&keys, 2, 0, Outcome::Absent, 0, &[62, 61], false);
    told(&keys, 2, 2, Outcome::Planned(0), 0, &[62, 61], false);
    told(&keys, 2, 3, Outcome::Planned(1), 0, &[62, 61], true);
    told(&keys, 2, 4, Outcome::Absent, 1, &[62, 61], false);
    told(&keys, 2, 8, Outcome::Planned(2), 1, &[62, 61], true);
    told(&keys, 2, 9, Outcome::Absent, 2, &[62, 61], false);
    told(&keys, 2, 16, Outcome::Absent, 2, &[], false);
    // By threes there is one delimiter, 8.
    told(&keys, 3, 3, Outcome::Planned(1), 0, &[], false);
    told(&keys, 3, 8, Outcome::Planned(2), 0, &[], true);
    told(&keys, 3, 9, Outcome::Absent, 1, &[], false);

    // By threes the delimiters are rows 2, 5, 8, 10: splits of 6, 10 and 1 bits. The root is split 3,
    // and splits 1 and 2 have handles of 4 and 8 bits.
    let keys = samples::eleven_keys();
    told(&keys, 3, keys[6], Outcome::Planned(6), 2, &[32, 16, 8, 12, 11], false);
    told(&keys, 3, keys[8], Outcome::Planned(8), 2, &[32, 16, 8, 12, 11], true);
    told(&keys, 3, keys[9], Outcome::Planned(9), 3, &[32, 16, 8, 4, 7], false);
    told(&keys, 3, keys[10], Outcome::Planned(10), 3, &[32, 16, 8, 4, 2], true);
    told(&keys, 3, 1 << 63, Outcome::Absent, 4, &[], false);
    checks
}

/// The delimiters by their row numbers: a row is the last of its bucket if the next one begins a
/// bucket or if there is none.
fn last_rows(keys: &[u64], bucket: usize) -> Vec<u64> {
    let mut delimiters = Vec::new();
    for (row, &key) in keys.iter().enumerate() {
        let next = row + 1;
        if next % bucket == 0 || next == keys.len() {
            delimiters.push(key);
        }
    }
    delimiters
}

/// What a neighbour index is to hold, from the keys as texts: the inner nodes of the trie are what
/// some two keys share.
fn by_texts(keys: &[u64]) -> Wanted {
    let n = keys.len();
    let texts: Vec<String> = keys.iter().map(|&key| reads::bits(key)).collect();
    let mut nodes = BTreeSet::new();
    for (i, one) in texts.iter().enumerate() {
        for other in &texts[..i] {
            let shared = one.bytes().zip(other.bytes()).take_while(|(a, b)| a == b).count();
            nodes.insert(one[..shared].to_string());
        }
    }
    let mut handles = BTreeMap::new();
    let (mut left, mut right, mut lengths) = (vec![0; n], vec![0; n], vec![0; n]);
    for node in &nodes {
        // The split is the first row on the node's right side.
        let right_side = format!("{node}1");
        let split = texts.iter().position(|text| text.starts_with(&right_side)).unwrap();
        left[split] = texts.iter().position(|text| text.starts_with(node)).unwrap() as u16;
        right[split] = 1 + texts.iter().rposition(|text| text.starts_with(node)).unwrap() as u16;
        lengths[split] = node.len() as u8;
        let above = |other: &&String| other.len() < node.len() && node.starts_with(other.as_str());
        match nodes.iter().filter(above).map(String::len).max() {
            None => left[0] = split as u16,
            Some(parent) => {
                let f = (parent + 1..=node.len()).max_by_key(|f| f.trailing_zeros()).unwrap();
                let marked = format!("{}1", &node[..f]);
                let item = u64::from_str_radix(&format!("{marked:0<64}"), 2).unwrap();
                handles.insert(split as u16, item);
            }
        }
    }
    let handles = handles.into_iter().map(|(split, item)| (item, split)).collect();
    Wanted { handles, left, right, lengths }
}

/// What the stores are to hold, each a second way.
pub fn stores() -> usize {
    let mut gen = Gen::new(12);
    let rounds = 1500;
    for round in 0..rounds {
        let n = gen.below(80) as usize;
        let keys = if round % 2 == 0 { deep_table(n, &mut gen) } else { gen.rising(n, Gen::next) };
        let bucket = [2, 3, 4, 7, 16, 256][round % 6];
        let delimiters = last_rows(&keys, bucket);
        assert_eq!(slim::delimiters(&keys, bucket), delimiters);
        let offsets = slim::offset_values(&keys, bucket);
        assert_eq!(offsets.len(), n);
        for (row, &(item, offset)) in offsets.iter().enumerate() {
            let smaller = delimiters.iter().filter(|&&delimiter| delimiter < item).count();
            assert_eq!((item, smaller * bucket + usize::from(offset)), (keys[row], row));
        }

        let Built { stores, .. } = built(&keys, bucket);
        let wanted = by_texts(&delimiters);
        assert_eq!(slim::handle_values(&keys, bucket), wanted.handles);
        assert_eq!(stores.left, wanted.left);
        assert_eq!(stores.right, wanted.right);
        assert_eq!(stores.lengths, wanted.lengths);
    }
    6 * rounds
}

/// Holds the slim profile to the full index of the same table, to the table itself, and to the
/// delimiters counted one by one.
fn check_answers(keys: &[u64], bucket: usize, rows: usize, gen: &mut Gen) -> usize {
    let full = Profile::Full.built(keys, bucket).unwrap();
    let Built { seed, stores } = built(keys, bucket);
    let n = keys.len();
    let delimiters = last_rows(keys, bucket);
    let shared = delimiters.iter().map(|&key| shared_bits(delimiters[0], key)).min();
    let most_probes = match shared {
        Some(shared) if delimiters.len() > 1 => 32 - (63 - shared).leading_zeros(),
        _ => 0,
    };

    let mut all = asks(keys, rows, gen);
    // Every key and its neighbours, but of large tables only some.
    for &key in keys.iter().step_by(1 + n / 2000) {
        all.extend([key, key.wrapping_sub(1), key.wrapping_add(1)]);
    }
    for row_bytes in [vec![0; n], keys.iter().map(|_| row_byte(gen)).collect()] {
        for &x in &all {
            let slim::Answer { outcome, near } =
                slim::ask(keys, &row_bytes, bucket, [seed; 2], &stores, x).unwrap();
            let call = full.stores.call(keys, &row_bytes, bucket, [full.seed; 2], x);
            assert_eq!(Ok(outcome), call);
            assert_eq!(outcome, searched(keys, &row_bytes, x));
            assert_eq!(near.before, delimiters.iter().filter(|&&key| key < x).count());
            assert_eq!(near.stands, delimiters.contains(&x));
            assert!(near.probed.len() as u32 <= most_probes && most_probes <= 6);
            let walk = reads::walk(Source::Table, &delimiters, seed, &stores, x);
            assert_eq!(walk.answer, Ok(near));
        }
    }
    2 * 6 * all.len()
}

pub fn answers() -> usize {
    let mut gen = Gen::new(13);
    let mut checks = 0;
    for name in ["sequential", "spread", "clustered", "bits"] {
        for n in [0, 1, 2, 3, 4, 5, 9, 16, 17, 33, 65, 256, 257, 700] {
            for bucket in [2, 3, 16, 255, 256] {
                checks += check_answers(&samples::table(name, n), bucket, 50, &mut gen);
            }
        }
    }
    checks += check_answers(&samples::eleven_keys(), 3, 1000, &mut gen);
    for round in 0..600 {
        let n = gen.below(60) as usize;
        let keys = deep_table(n, &mut gen);
        checks += check_answers(&keys, 2 + round % 20, 30, &mut gen);
    }
    for bucket in [16, 256] {
        for name in ["spread", "clustered"] {
            checks += check_answers(&samples::table(name, table::MOST_KEYS), bucket, 300, &mut gen);
        }
    }
    checks
}

/// With no bucket and with one nothing is probed and no bounds are read: whatever is written there,
/// the answers stay. Nine handle cells are wanted all the same. With two buckets the root is read.
pub fn few_buckets() -> usize {
    let mut gen = Gen::new(14);
    let mut checks = 0;
    for bucket in [2, 3, 16, 256] {
        for n in 0..=bucket + 1 {
            let keys = gen.rising(n, Gen::next);
            let row_bytes: Vec<u8> = keys.iter().map(|_| row_byte(&mut gen)).collect();
            let Built { seed, mut stores } = built(&keys, bucket);
            let ask =
                |stores: &Stores, x| slim::ask(&keys, &row_bytes, bucket, [seed; 2], stores, x);
            let true_stores = stores.clone();
            stores.handles.fill_with(|| gen.next() as u16);
            stores.left.fill_with(|| gen.next() as u16 | 1 << 15);
            stores.right.fill_with(|| gen.next() as u16);
            stores.lengths.fill_with(|| gen.next() as u8);
            let mut all = asks(&keys, 5, &mut gen);
            all.extend(keys.iter().step_by(1 + n / 20));
            all.extend(keys.last());
            for x in all {
                if n > bucket {
                    assert_eq!(ask(&stores, x), refused(6, 0));
                } else {
                    let answer = ask(&true_stores, x).unwrap();
                    assert_eq!(ask(&stores, x), Ok(answer.clone()));
                    assert_eq!(answer.outcome, searched(&keys, &row_bytes, x));
                    let before = usize::from(keys.last().is_some_and(|&last| last < x));
                    assert_eq!((answer.near.before, answer.near.probed), (before, vec![]));
                }
                checks += 1;
            }
            assert_eq!(stores.handles.len(), 9);
            stores.handles.pop();
            assert_eq!(ask(&stores, 1), refused(4, 2));
            checks += 2;
        }
    }
    checks
}

/// What the build says of seeds that are drawn, beside all the sets of both maps' items.
pub fn jams() -> usize {
    let mut gen = Gen::new(15);
    let rounds = 3000;
    // None, in the offsets alone, in the handles alone, in both.
    let mut seen = [0; 4];
    for round in 0..rounds {
        // More often tables of some handles, which jam more often.
        let n = if round % 3 == 0 { round / 3 % 13 } else { 9 + round % 4 };
        let keys = gen.rising(n, Gen::next);
        let bucket = [2, 2, 2, 3][round % 4];
        let seeds = [gen.next(), gen.next()];
        let handles: Vec<u64> =
            by_texts(&last_rows(&keys, bucket)).handles.iter().map(|&(item, _)| item).collect();
        let largest =
            |items: &[u64], seed| maps::largest_by_subsets(&maps::triples(items, seed)).len();
        let (one, three) = (largest(&keys, seeds[0]), largest(&handles, seeds[1]));
        seen[usize::from(one > 0) + 2 * usize::from(three > 0)] += 1;
        let expected = match (one, three) {
            (0, 0) => Ok(()),
            (0, jammed) => Err(BuildRefusal { refusal: jam(3), jammed }),
            (jammed, _) => Err(BuildRefusal { refusal: jam(1), jammed }),
        };
        let mut stores = Profile::Slim.stores(n, bucket);
        assert_eq!(slim::build(&keys, bucket, seeds, &mut stores), expected);
    }
    assert!(seen.iter().all(|&count| count > 20), "{seen:?}");
    rounds
}

/// Every set of the faults that a slim ask judges, for a key that stands in the table and for one
/// that doesn't: the refusal is that of the first fault. No work is lent.
pub fn faults() -> usize {
    let (few, many) = (samples::table("spread", 17), too_many());
    let Built { seed, stores: few_stores } = built(&few, 3);
    let many_stores = Profile::Slim.stores(many.len(), 3);
    let numbers = [(1, 0), (2, 0), (4, 1), (4, 2), (4, 3), (4, 4), (4, 6), (4, 7), (6, 0)];
    let mut checks = 0;
    for faults in 0..1 << numbers.len() {
        let fault = |i: usize| faults >> i & 1 == 1;
        let first = (0..numbers.len()).find(|&i| fault(i)).map(|i| numbers[i]);
        let (keys, stores) = if fault(0) { (&many, &many_stores) } else { (&few, &few_stores) };
        let bucket = if fault(1) { [0, 1, 257, usize::MAX][faults % 4] } else { 3 };
        for by_all in [false, true] {
            let length = |i: usize, named: usize| match (fault(i), by_all) {
                (true, true) => 0,
                (true, false) => named - 1,
                (false, _) => named,
            };
            let mut stores = stores.clone();
            stores.work.clear();
            if fault(8) {
                stores.left[0] = 0;
            }
            stores.cells.truncate(length(2, stores.cells.len()));
            stores.handles.truncate(length(3, stores.handles.len()));
            stores.left.truncate(length(4, stores.left.len()));
            stores.right.truncate(length(5, stores.right.len()));
            stores.lengths.truncate(length(6, stores.lengths.len()));
            let row_bytes = vec![by_all as u8; length(7, keys.len())];
            for x in [few[5], few[5] + 1] {
                let answer = slim::ask(keys, &row_bytes, bucket, [seed; 2], &stores, x);
                let expected = match first {
                    Some((number, named)) => refused(number, named),
                    None => Ok(searched(keys, &row_bytes, x)),
                };
                assert_eq!(answer.map(|answer| answer.outcome), expected);
                checks += 1;
            }
        }
    }
    checks
}

/// Cells of a map of n items that give this one item its value.
fn cells_giving(item: u64, value: u16, seed: u64, n: usize) -> Vec<u16> {
    let mut cells = vec![0; maps::cell_count(n)];
    cells[maps::touched(item, seed, n)[0]] = value;
    cells
}

/// Offsets of every size, over bounds that lead to other buckets too: whether a row is told is
/// decided by the row that bucket and offset give, and by the key there. The bucket's end is not.
pub fn offsets() -> usize {
    // A table that doesn't rise: 5 stands twice, and what is before 9 is in bucket 0.
    let told = [
        (5, 0, Outcome::Planned(0)),
        (5, 1, Outcome::Absent),
        (5, 2, Outcome::Planned(2)),
        (5, 3, Outcome::Absent),
        (5, 4, Outcome::Absent),
        (5, 256, Outcome::Absent),
        (5, u16::MAX, Outcome::Absent),
        (12, 0, Outcome::Absent),
        (12, 1, Outcome::Planned(3)),
        (12, 3, Outcome::Absent),
        (13, 0, Outcome::Absent),
    ];
    for (x, offset, expected) in told {
        let stores = Stores {
            cells: cells_giving(x, offset, 0, 4),
            left: vec![1, 0],
            right: vec![0, 2],
            lengths: vec![0, 61],
            ..Profile::Slim.stores(4, 2)
        };
        let answer = slim::ask(&[5, 9, 5, 12], &[0; 4], 2, [0; 2], &stores, x).unwrap();
        assert_eq!(answer.outcome, expected, "{x} {offset}");
    }
    // Of the table 9, 3 the delimiter is 3. So 9 has one before it, which is k, and is absent.
    for (x, offset, expected) in [(9, 0, None), (9, 1, None), (3, 0, None), (3, 1, Some(1))] {
        let cells = cells_giving(x, offset, 0, 2);
        let stores = Stores { cells, ..Profile::Slim.stores(2, 2) };
        let answer = slim::ask(&[9, 3], &[0; 2], 2, [0; 2], &stores, x).unwrap();
        assert_eq!(answer.outcome.row(), expected, "{x} {offset}");
    }
    told.len() + 4 + offsets_over_damaged_bounds()
}

fn offsets_over_damaged_bounds() -> usize {
    let mut gen = Gen::new(16);
    let mut checks = 0;
    // Asks with as many delimiters before as there are; rows told in their bucket, past its end, by
    // offsets over 255; and asks of the right row but for 256.
    let mut seen = [0; 5];
    for round in 0..1200 {
        let n = 1 + gen.below([20, 60, 500][round % 3]) as usize;
        let keys = match round % 3 {
            0 => deep_table(n, &mut gen),
            _ => gen.rising(n, |gen| gen.next() >> 48),
        };
        let bucket = [2, 3, 16, 256][round % 4];
        let delimiters = last_rows(&keys, bucket);
        let Built { seed, mut stores } = built(&keys, bucket);
        let k = delimiters.len();
        // Few splits keep their rows, and some roots are so long that keys leave there, with no
        // delimiter before them or with all: so walks end anywhere.
        for m in 1..k {
            if gen.below(4) > 0 {
                stores.left[m] = gen.below(m as u64) as u16;
                stores.right[m] = (m as u64 + 1 + gen.below((k - m) as u64)) as u16;
            }
        }
        if k > 1 && round % 5 > 0 {
            let root = 1 + gen.below(k as u64 - 1) as usize;
            stores.left[0] = root as u16;
            stores.lengths[root] = 63;
        }
        let row_bytes: Vec<u8> = keys.iter().map(|_| row_byte(&mut gen)).collect();
        for _ in 0..20 {
            let row = gen.below(n as u64) as usize;
            let x = keys[row];
            let before = reads::walk(Source::Store, &delimiters, seed, &stores, x).answer;
            let first = before.unwrap().before * bucket;
            let right = row.saturating_sub(first);
            let all = [0, 1, right, right + 1, right + 256, right % 256, n, u16::MAX.into()];
            let beyond = n.saturating_sub(first);
            for offset in all.into_iter().chain(beyond..beyond + 3) {
                stores.cells = cells_giving(x, offset as u16, seed, n);
                let answer = slim::ask(&keys, &row_bytes, bucket, [seed; 2], &stores, x).unwrap();
                let there = first + offset == row;
                let expected = match row_bytes[row] {
                    0 if there => Outcome::Planned(row),
                    _ if there => Outcome::Withdrawn(row),
                    _ => Outcome::Absent,
                };
                assert_eq!(answer.outcome, expected);
                seen[0] += usize::from(first == k * bucket);
                seen[1] += usize::from(there && offset < bucket);
                seen[2] += usize::from(there && offset >= bucket);
                seen[3] += usize::from(there && offset > 255);
                seen[4] += usize::from(first + offset == row + 256);
                checks += 1;
            }
        }
    }
    assert!(seen.iter().all(|&count| count > 200), "{seen:?}");
    checks
}

/// The slim ask a second time, with the other walk and the rows as they are counted.
fn another_ask(
    keys: &[u64],
    row_bytes: &[u8],
    bucket: usize,
    seeds: [u64; 2],
    stores: &Stores,
    x: u64,
) -> Result<slim::Answer, Refusal> {
    let delimiters = last_rows(keys, bucket);
    let near = reads::walk(Source::Store, &delimiters, seeds[1], stores, x).answer?;
    let offset = maps::lookup(x, seeds[0], keys.len(), &stores.cells);
    let mut rows = (0..keys.len()).skip(near.before * bucket).zip(0..=u16::MAX);
    let row = rows.find(|&(row, i)| i == offset && keys[row] == x);
    let outcome = match row.map(|(row, _)| (row, row_bytes[row])) {
        None => Outcome::Absent,
        Some((row, 0)) => Outcome::Planned(row),
        Some((row, 1..)) => Outcome::Withdrawn(row),
    };
    Ok(slim::Answer { outcome, near })
}

/// Over stores that no build left, in tables that may be turned or hold keys twice.
pub fn damaged() -> usize {
    let mut gen = Gen::new(17);
    let mut checks = 0;
    // Planned, withdrawn, absent, refused.
    let mut seen = [0; 4];
    for round in 0..3000 {
        let n = gen.below(60) as usize;
        let mut keys = deep_table(n, &mut gen);
        let bucket = [2, 3, 5, 16, 256][round % 5];
        let seeds = [gen.next(), gen.next()];
        let Built { seed, mut stores } = built(&keys, bucket);
        let k = stores.left.len() as u64;
        let seeds = if round % 2 == 0 { [seed; 2] } else { seeds };
        // Each kind of store is left as it was, damaged in few places, or filled anew.
        let damage = |entries: &mut [u16], most: u64, gen: &mut Gen| match gen.below(4) {
            0 => entries.iter_mut().step_by(7).for_each(|entry| *entry ^= gen.below(4) as u16),
            1 => entries.fill_with(|| gen.below(most) as u16),
            _ => {}
        };
        damage(&mut stores.cells, 4, &mut gen);
        damage(&mut stores.handles, k + 2, &mut gen);
        damage(&mut stores.left, k + 2, &mut gen);
        damage(&mut stores.right, k + 2, &mut gen);
        if gen.below(3) == 0 {
            stores.lengths.iter_mut().for_each(|length| *length = gen.below(66) as u8);
        }
        match round % 7 {
            0 => keys.reverse(),
            1 if n > 0 => {
                let twice = keys[gen.below(n as u64) as usize];
                keys.iter_mut().step_by(2).for_each(|key| *key = twice);
            }
            _ => {}
        }
        let row_bytes: Vec<u8> = keys.iter().map(|_| row_byte(&mut gen)).collect();
        let mut all = asks(&keys, 10, &mut gen);
        all.extend(&keys);
        for x in all {
            let answer = slim::ask(&keys, &row_bytes, bucket, seeds, &stores, x);
            assert_eq!(answer, another_ask(&keys, &row_bytes, bucket, seeds, &stores, x));
            let told = match answer.map(|answer| answer.outcome) {
                Ok(Outcome::Planned(_)) => 0,
                Ok(Outcome::Withdrawn(_)) => 1,
                Ok(Outcome::Absent) => 2,
                Err(_) => 3,
            };
            seen[told] += 1;
            checks += 1;
        }
    }
    assert!(seen.iter().all(|&count| count > 2000), "{seen:?}");
    checks
}

/// The lines of the vectors that tell what is answered over built stores, by table, keys and bucket,
/// each with the words of the outcomes.
fn outcome_words(name: &str) -> BTreeMap<String, String> {
    let text = vectors::text(name).unwrap();
    let mut words = BTreeMap::new();
    for line in text.lines() {
        let all: Vec<&str> = line.split(' ').collect();
        if all.len() == 11 && all[4].starts_with("found=") && all[10].starts_with("neighbour=") {
            words.insert(all[..3].join(" "), all[4..8].join(" "));
        }
    }
    words
}

/// In `slimvectors` the outcomes over built stores are word for word those of `fullvectors`.
pub fn vector_words() -> usize {
    let slim = outcome_words("slimvectors");
    assert_eq!(slim, outcome_words("fullvectors"));
    assert_eq!(slim.len(), 5 * vectors::answer_tables().len());
    slim.len()
}
