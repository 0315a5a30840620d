//! Checks of this program against the documents and against itself.
//! A check that fails stops the program.

use crate::bits::{agree, prefix_item, shared_bits, two_fattest};
use crate::call::Outcome;
use crate::full::{self, Stores};
use crate::gen::Gen;
use crate::keys::{pack, unpack, Fields};
use crate::maps::items_of;
use crate::mix::{item_hash, mix};
use crate::profile::{Built, Profile};
use crate::reads::{self, Source};
use crate::refusal::{jam, BuildRefusal, Refusal};
use crate::{call, cases, maps, neighbour, plant, rowcheck, samples, slim, table, vectors};
use std::collections::BTreeSet;

mod slim_profile;

/// A group of checks, which gives their number.
type Group = (&'static str, fn() -> usize);

pub fn run() {
    let groups: [Group; 30] = [
        ("constants", constants),
        ("bits", bits),
        ("key fields", key_fields),
        ("largest jam by removing and by all sets", jams),
        ("eleven-key table", eleven_key_table),
        ("answers after accepted builds", answers),
        ("refusals of the builds", build_refusals),
        ("refusals of the asks", ask_refusals),
        ("planned, withdrawn or absent", outcomes),
        ("withdrawn rows over damaged cells", damaged_cells),
        ("all faults of a call ask together", call_faults),
        ("spoiled bounds", spoiled_bounds),
        ("a false length by hand", false_length),
        ("rows read, by hand", rows_read),
        ("false lengths by another walk", false_lengths),
        ("short stores", short_stores),
        ("sizes of jams", jam_sizes),
        ("what builds leave", lent_memory),
        ("planted items", planted),
        ("rowcheck", rowcheck_example),
        ("rowcheck where all seeds jam", rowcheck_jams),
        ("slim profile by hand", slim_profile::by_hand),
        ("slim delimiters, offsets and handles", slim_profile::stores),
        ("slim answers beside the full index's", slim_profile::answers),
        ("slim tables of no bucket and of one", slim_profile::few_buckets),
        ("slim jams by all sets", slim_profile::jams),
        ("all faults of a slim ask together", slim_profile::faults),
        ("slim offsets of every size", slim_profile::offsets),
        ("slim asks over damaged stores by another ask", slim_profile::damaged),
        ("slim vectors beside the full ones", slim_profile::vector_words),
    ];
    for (name, group) in groups {
        println!("{name}: {} checks", group());
    }
    println!("selfcheck ok");
}

fn constants() -> usize {
    assert_eq!(mix(0), 0);
    let sizes = [(0, 9), (4, 12), (11, 21), (32_768, 41_295)];
    for (t, cells) in sizes {
        assert_eq!(maps::cell_count(t), cells);
    }
    let published = [
        6457827717110365317,
        3203168211198807973,
        9817491932198370423,
        4593380528125082431,
        16408922859458223821,
    ];
    assert_eq!(vectors::splitmix(1_234_567, 5), published);
    1 + sizes.len() + published.len()
}

fn bits() -> usize {
    let mut gen = Gen::new(1);
    let mut checks = 0;
    for _ in 0..20_000 {
        let a = gen.next();
        let b = a ^ (gen.next() >> gen.below(64));
        let shared = shared_bits(a, b);
        assert_eq!(shared, (a ^ b).leading_zeros());
        for length in 0..64 {
            assert_eq!(agree(a, b, length), length <= shared);
            assert_eq!(prefix_item(a, length) == prefix_item(b, length), length <= shared);
            assert_eq!(prefix_item(a, length).trailing_zeros(), 63 - length);
        }
        checks += 193;
    }
    for low in 1..64 {
        for high in low..64 {
            let f = two_fattest(low, high);
            assert!(low <= f && f <= high);
            for other in (low..=high).filter(|&other| other != f) {
                assert!(other.trailing_zeros() < f.trailing_zeros());
                checks += 1;
            }
        }
    }
    checks
}

fn key_fields() -> usize {
    let mut gen = Gen::new(2);
    assert_eq!(pack(Fields { day: 1, stop: 2, second: 3, block: 4 }), Ok(0x0001000200018004));
    // Of the seconds that 17 bits hold, those of thirty hours are taken, and no other.
    let seconds: u32 = 1 << 17;
    for second in 0..seconds {
        let fields = Fields { day: 1, stop: 2, second, block: 4 };
        let key = 0x0001000200000004 + (u64::from(second) << 15);
        let fits = second < 30 * 60 * 60;
        assert_eq!(pack(fields).ok(), fits.then_some(key));
        assert_eq!(unpack(key).ok(), fits.then_some(fields));
    }
    let count = 200_000;
    let mut taken = [0; 2];
    for _ in 0..count {
        let mut field = |limit: u64| gen.below(limit) as u32;
        let fields = Fields {
            day: field(66_000),
            stop: field(66_000),
            second: field(140_000),
            block: field(33_000),
        };
        let fits = fields.day < 65_536
            && fields.stop < 65_536
            && fields.second < 108_000
            && fields.block < 32_768;
        match pack(fields) {
            Ok(key) => assert!(fits && unpack(key) == Ok(fields)),
            Err(refusal) => assert!(!fits && refusal.number == 7),
        }
        taken[0] += usize::from(fits);

        let key = gen.next();
        match unpack(key) {
            Ok(fields) => {
                assert_eq!(pack(fields), Ok(key));
                taken[1] += 1;
            }
            Err(refusal) => assert!(refusal.number == 7 && (key >> 15) % (1 << 17) > 107_999),
        }
    }
    assert!(taken.iter().all(|&taken| 0 < taken && taken < count));
    1 + 2 * seconds as usize + 2 * count
}

/// The largest jam a third way: in each round all the items go that alone touch a cell.
fn jam_by_rounds(triples: &[[usize; 3]]) -> Vec<usize> {
    let mut left: Vec<usize> = (0..triples.len()).collect();
    loop {
        let touching =
            |cell: &usize| left.iter().filter(|&&item| triples[item].contains(cell)).count();
        let stays = |item: &usize| triples[*item].iter().all(|cell| touching(cell) > 1);
        let staying: Vec<usize> = left.iter().copied().filter(stays).collect();
        if staying.len() == left.len() {
            return left;
        }
        left = staying;
    }
}

/// Compares all ways of finding the largest jam, holds it to every jam, and gives its size.
fn same_jam(triples: &[[usize; 3]], cells: usize) -> usize {
    let largest = maps::largest_by_subsets(triples);
    assert_eq!(maps::peel(triples, cells).jam, largest);
    assert_eq!(maps::largest_jam(triples, cells), largest);
    assert_eq!(jam_by_rounds(triples), largest);

    let jams = maps::all_jams(triples);
    assert_eq!(jams.is_empty(), largest.is_empty());
    for jam in &jams {
        assert!(jam.iter().all(|item| largest.contains(item)));
    }
    // Few items have few enough jams to put every two of them together.
    if triples.len() <= 6 {
        for one in &jams {
            for other in &jams {
                let within = |item: &usize| one.contains(item) || other.contains(item);
                let together: Vec<usize> = (0..triples.len()).filter(within).collect();
                assert!(maps::is_jam(&together, triples));
            }
        }
    }
    largest.len()
}

fn jams() -> usize {
    let mut gen = Gen::new(3);
    let mut seen = [0; 13];
    let mut check = |triples: &[[usize; 3]], cells: usize| {
        seen[same_jam(triples, cells)] += 1;
    };
    for round in 0..6000 {
        let t = round % 13;
        let items: Vec<u64> = (0..t).map(|_| gen.next()).collect();
        check(&maps::triples(&items, gen.next()), maps::cell_count(t));
    }
    // Segments of another size than M give jams of more shapes.
    for round in 0..6000 {
        let t = round % 13;
        let m = 1 + gen.below(6) as usize;
        let place = |gen: &mut Gen, i: usize| i * m + gen.below(m as u64) as usize;
        let triples: Vec<_> = (0..t).map(|_| [0, 1, 2].map(|i| place(&mut gen, i))).collect();
        check(&triples, 3 * m);
    }
    for name in ["sequential", "spread", "clustered", "bits"] {
        for n in 0..=12 {
            let keys = samples::table(name, n);
            let three_maps = full::three_maps(&keys, 3).map(|wanted| items_of(&wanted));
            for seed in 0..32 {
                for items in &three_maps {
                    check(&maps::triples(items, seed), maps::cell_count(items.len()));
                }
            }
        }
    }
    // One item never jams, and every other size is met.
    assert!(seen[0] > 1000 && seen[1] == 0 && seen[2..].iter().all(|&count| count > 100));
    seen.iter().sum()
}

fn eleven_key_table() -> usize {
    let keys = samples::eleven_keys();
    let lengths: Vec<u32> = (0..4).map(|i| call::bucket_length(call::view(&keys, 3, i))).collect();
    assert_eq!(lengths, [2, 8, 11, 1], "case 1");
    let lens: Vec<u32> = (1..11).map(|m| neighbour::len(&keys, m)).collect();
    assert_eq!(lens, [2, 11, 6, 9, 8, 10, 12, 11, 7, 1], "case 2");
    assert_eq!(neighbour::root(&keys), 10, "case 3");
    let handles: Vec<u32> =
        (1..10).map(|m| neighbour::handle_length(&keys, m, &neighbour::rows(&keys, m))).collect();
    assert_eq!(handles, [2, 8, 4, 9, 8, 10, 12, 11, 7], "case 4");
    assert_eq!(neighbour::rows(&keys, 6), 5..9, "case 5");
    let built = rowcheck::build(&keys, 3).unwrap();
    let answer = built.stores.neighbour(&keys, built.seed, keys[6]).unwrap();
    assert_eq!(answer.probed, [32, 16, 8, 12, 14, 13], "case 6");
    assert_eq!(answer.before, 6, "case 6");

    let keys = [2, 3, 8];
    let built = rowcheck::build(&keys, 2).unwrap();
    for (case, x, before, probes) in [(7, 3, 1, 1), (8, 9, 3, 2), (9, 16, 3, 0), (10, 0, 0, 2)] {
        let answer = built.stores.neighbour(&keys, built.seed, x).unwrap();
        assert_eq!((answer.before, answer.probed.len()), (before, probes), "case {case}");
    }
    10
}

/// Keys at and around some rows, keys with one bit turned, and keys from anywhere.
fn asks(keys: &[u64], rows: usize, gen: &mut Gen) -> Vec<u64> {
    let mut asks = vec![0, 1, 1 << 63, u64::MAX];
    for _ in 0..rows {
        asks.push(gen.next());
        if !keys.is_empty() {
            let key = keys[gen.below(keys.len() as u64) as usize];
            asks.extend([key.wrapping_sub(1), key.wrapping_add(1), key ^ (1 << gen.below(64))]);
        }
    }
    asks
}

/// Keys that share their first bits and differ in few places, which make deep trees.
fn deep_table(n: usize, gen: &mut Gen) -> Vec<u64> {
    let base = gen.next();
    let width = 6 + gen.below(58);
    gen.rising(n, |gen| base ^ ((gen.next() & gen.next()) >> (63 - width)))
}

fn check_answers(keys: &[u64], bucket: usize, rows: usize, gen: &mut Gen) -> usize {
    let Built { seed, stores } = rowcheck::build(keys, bucket).unwrap();
    let n = keys.len();
    let shared = keys.iter().map(|&key| shared_bits(keys[0], key)).min().unwrap_or(0);
    let most_probes = if n < 2 { 0 } else { 32 - (63 - shared).leading_zeros() };

    let row_bytes = vec![0; n];
    for (row, &key) in keys.iter().enumerate() {
        let outcome = stores.call(keys, &row_bytes, bucket, [seed; 2], key);
        assert_eq!(outcome, Ok(Outcome::Planned(row)));
    }
    let every = (n / (rows + 1)).max(1);
    let mut all = asks(keys, rows, gen);
    all.extend(keys.iter().step_by(every));
    for &x in &all {
        let row = keys.iter().position(|&key| key == x);
        let outcome = stores.call(keys, &row_bytes, bucket, [seed; 2], x);
        assert_eq!(outcome, Ok(row.map_or(Outcome::Absent, Outcome::Planned)));
        let answer = stores.neighbour(keys, seed, x).unwrap();
        assert_eq!(answer.before, keys.iter().filter(|&&key| key < x).count());
        assert_eq!(answer.stands, row.is_some());
        assert!(answer.probed.len() as u32 <= most_probes && most_probes <= 6);
        // With len from the table, as it was before the lengths were stored, the answer is the same.
        assert_eq!(reads::walk(Source::Table, keys, seed, &stores, x).answer, Ok(answer));
    }
    n + 2 * all.len()
}

fn answers() -> usize {
    let mut gen = Gen::new(4);
    let mut checks = 0;
    for name in ["sequential", "spread", "clustered", "bits"] {
        for n in [0, 1, 2, 3, 4, 9, 16, 17, 33, 65, 256, 257, 700] {
            for bucket in [2, 3, 16, 255, 256] {
                checks += check_answers(&samples::table(name, n), bucket, 100, &mut gen);
            }
        }
    }
    checks += check_answers(&samples::eleven_keys(), 3, 1000, &mut gen);
    for round in 0..600 {
        let n = gen.below(40) as usize;
        let keys = deep_table(n, &mut gen);
        checks += check_answers(&keys, 2 + round % 20, 60, &mut gen);
    }
    for name in ["spread", "clustered"] {
        checks += check_answers(&samples::table(name, table::MOST_KEYS), 256, 500, &mut gen);
    }
    checks
}

fn refused<T>(number: u32, named: usize) -> Result<T, Refusal> {
    Err(Refusal { number, named })
}

/// A falling table of one key too many.
fn too_many() -> Vec<u64> {
    (0..=table::MOST_KEYS as u64).rev().collect()
}

const RISING: [u64; 4] = [1, 2, 3, 4];
const FALLING: [u64; 4] = [1, 2, 2, 1];

/// A number for entry i of which neither byte is 0.
fn pattern(i: usize) -> u16 {
    257 * (1 + i % 255) as u16
}

/// Looks whether a build gives this refusal, tells of no jam and changes nothing.
fn check_refused(
    profile: Profile,
    keys: &[u64],
    bucket: usize,
    seeds: [u64; 3],
    sizes: [usize; 6],
    refusal: Refusal,
) {
    let mut stores = Stores::filled(sizes, pattern);
    let before = stores.clone();
    let said = profile.build(keys, bucket, seeds, &mut stores);
    assert_eq!(said, Err(BuildRefusal { refusal, jammed: 0 }));
    assert_eq!(stores, before);
}

/// Refusals 1 to 3, in stores of no entries and of some. Most of these tables and bucket sizes have
/// faults that are judged later, too.
fn build_refusals() -> usize {
    let mut checks = 0;
    let mut refused = |keys: &[u64], bucket: usize, number: u32, named: usize| {
        for sizes in [[0; 6], [100; 6]] {
            for profile in Profile::BOTH {
                check_refused(profile, keys, bucket, [0; 3], sizes, Refusal { number, named });
                checks += 1;
            }
        }
    };
    for bucket in [0, 1, 2, 256, 257] {
        refused(&too_many(), bucket, 1, 0);
    }
    for bucket in [0, 1, 257, usize::MAX] {
        for keys in [&FALLING, &RISING, &[][..]] {
            refused(keys, bucket, 2, 0);
        }
    }
    for bucket in [2, 256] {
        refused(&FALLING, bucket, 3, 2);
        refused(&[5, 5], bucket, 3, 1);
        refused(&[1, 2, 3, 0, 0], bucket, 3, 3);
    }
    checks
}

fn ask_refusals() -> usize {
    let [cells, handles, ..] = full::named(4, 2);
    let call = |keys: &[u64], bucket: usize, cells: usize, row_bytes: usize| {
        call::ask(keys, &vec![0; row_bytes], bucket, [0; 2], &vec![0; cells], 1)
    };
    assert_eq!(call(&too_many(), 1, 0, 0), refused(1, 0));
    assert_eq!(call(&FALLING, 0, 0, 0), refused(2, 0));
    assert_eq!(call(&FALLING, 2, cells - 1, 3), refused(4, 1));
    assert_eq!(call(&FALLING, 2, cells, 3), refused(4, 7));
    assert_eq!(call(&FALLING, 2, cells, 4), Ok(Outcome::Planned(0)));
    assert_eq!(call(&[], 2, 18, 0), Ok(Outcome::Absent));

    let neighbour = |keys: &[u64], [handles, left, right, lengths]: [usize; 4]| {
        let stores = Stores::filled([0, handles, left, right, 0, lengths], |_| 0);
        stores.neighbour(keys, 0, 1).map(|answer| answer.before)
    };
    assert_eq!(neighbour(&too_many(), [0; 4]), refused(1, 0));
    assert_eq!(neighbour(&FALLING, [handles - 1, 0, 0, 0]), refused(4, 2));
    assert_eq!(neighbour(&FALLING, [handles, 3, 0, 0]), refused(4, 3));
    assert_eq!(neighbour(&FALLING, [handles, 4, 3, 0]), refused(4, 4));
    assert_eq!(neighbour(&FALLING, [handles, 4, 4, 3]), refused(4, 6));
    assert_eq!(neighbour(&FALLING, [handles, 4, 4, 4]), refused(6, 0));
    assert_eq!(neighbour(&[], [8, 0, 0, 0]), refused(4, 2));
    assert_eq!(neighbour(&[], [9, 0, 0, 0]), Ok(0));
    assert_eq!(neighbour(&[5], [9, 0, 1, 1]), refused(4, 3));
    assert_eq!(neighbour(&[5], [9, 1, 0, 1]), refused(4, 4));
    assert_eq!(neighbour(&[5], [9, 1, 1, 0]), refused(4, 6));
    assert_eq!(neighbour(&[5], [9, 1, 1, 1]), Ok(0));
    18
}

/// A byte of a row: mostly one at an end of its range, and else any.
fn row_byte(gen: &mut Gen) -> u8 {
    match gen.below(8) {
        0..=2 => 0,
        3 => 1,
        4 => 2,
        5 => 255,
        _ => gen.next() as u8,
    }
}

/// What the call ask has to say of x over stores that a build left: the table is gone through, and
/// then the byte of the row is looked at.
fn searched(keys: &[u64], row_bytes: &[u8], x: u64) -> Outcome {
    let Some(row) = keys.iter().position(|&key| key == x) else { return Outcome::Absent };
    match row_bytes[row] {
        0 => Outcome::Planned(row),
        1..=255 => Outcome::Withdrawn(row),
    }
}

/// Every key of a table and many others, under row bytes that change while the stores stay.
fn outcomes() -> usize {
    let mut gen = Gen::new(10);
    let mut checks = 0;
    // By outcome, and of the rows by their bytes.
    let (mut absent, mut rows) = (0, [0; 256]);
    for round in 0..1500 {
        let n = gen.below(40) as usize;
        let keys = deep_table(n, &mut gen);
        let bucket = [2, 3, 5, 16, 255, 256][round % 6];
        let Built { seed, stores } = rowcheck::build(&keys, bucket).unwrap();
        let mut all = asks(&keys, 20, &mut gen);
        all.extend(&keys);
        for _ in 0..3 {
            let row_bytes: Vec<u8> = keys.iter().map(|_| row_byte(&mut gen)).collect();
            let mut longer = row_bytes.clone();
            longer.extend((0..1 + gen.below(4)).map(|_| gen.next() as u8));
            for &x in &all {
                let outcome = searched(&keys, &row_bytes, x);
                assert_eq!(stores.call(&keys, &row_bytes, bucket, [seed; 2], x), Ok(outcome));
                assert_eq!(stores.call(&keys, &longer, bucket, [seed; 2], x), Ok(outcome));
                match outcome.row() {
                    Some(row) => rows[usize::from(row_bytes[row])] += 1,
                    None => absent += 1,
                }
                // The neighbour index is lent no row bytes: it counts the withdrawn keys too, and
                // finds them.
                let near = stores.neighbour(&keys, seed, x).unwrap();
                assert_eq!(near.before, keys.iter().filter(|&&key| key < x).count());
                assert_eq!(near.stands.then_some(near.before), outcome.row());
                checks += 4;
            }
        }
    }
    assert!(absent > 10_000 && rows.iter().all(|&count| count > 20), "{absent} {rows:?}");
    checks
}

/// Over cells that no build left, in tables that may hold a key twice: whatever row is told, the key
/// stands there, its byte decides how it is told, and which row it is no byte decides.
fn damaged_cells() -> usize {
    let mut gen = Gen::new(11);
    let mut checks = 0;
    let mut seen = [0; 3];
    for round in 0..2000 {
        let n = gen.below(40) as usize;
        let mut keys = deep_table(n, &mut gen);
        let bucket = [2, 3, 16, 256][round % 4];
        let Built { seed, mut stores } = rowcheck::build(&keys, bucket).unwrap();
        // Few cells damaged, cells of small numbers, and any cells.
        match round % 3 {
            0 => stores.cells.iter_mut().step_by(7).for_each(|cell| *cell ^= gen.next() as u16),
            1 => stores.cells.fill_with(|| gen.below(4) as u16),
            _ => stores.cells.fill_with(|| gen.next() as u16),
        }
        if round % 5 == 0 && n > 0 {
            let twice = keys[gen.below(n as u64) as usize];
            keys.iter_mut().step_by(2).for_each(|key| *key = twice);
        }
        let row_bytes: Vec<u8> = keys.iter().map(|_| row_byte(&mut gen)).collect();
        let mut all = asks(&keys, 10, &mut gen);
        all.extend(&keys);
        for x in all {
            let outcome = stores.call(&keys, &row_bytes, bucket, [seed; 2], x).unwrap();
            let told = match outcome {
                Outcome::Planned(row) => {
                    assert!(keys[row] == x && row_bytes[row] == 0);
                    0
                }
                Outcome::Withdrawn(row) => {
                    assert!(keys[row] == x && row_bytes[row] > 0);
                    1
                }
                Outcome::Absent => 2,
            };
            seen[told] += 1;
            let planned = stores.call(&keys, &vec![0; n], bucket, [seed; 2], x).unwrap();
            assert_eq!(planned, outcome.row().map_or(Outcome::Absent, Outcome::Planned));
            let withdrawn = stores.call(&keys, &vec![1; n], bucket, [seed; 2], x).unwrap();
            assert_eq!(withdrawn, outcome.row().map_or(Outcome::Absent, Outcome::Withdrawn));
            checks += 3;
        }
    }
    assert!(seen.iter().all(|&count| count > 2000), "{seen:?}");
    checks
}

/// Every set of the faults that a call ask judges, for a key that stands in the table and for one
/// that doesn't: the refusal is that of the first fault.
fn call_faults() -> usize {
    let few = samples::table("spread", 17);
    let built = rowcheck::build_with(&few, 3, 0).unwrap().stores.cells;
    let many = too_many();
    let mut checks = 0;
    for faults in 0..16 {
        let fault = |i: usize| faults >> i & 1 == 1;
        let numbers = [(1, 0), (2, 0), (4, 1), (4, 7)];
        let first = (0..4).find(|&i| fault(i)).map(|i| numbers[i]);
        let (keys, cells) = if fault(0) {
            (&many, vec![0; call::cells_named(many.len(), 3)])
        } else {
            (&few, built.clone())
        };
        let buckets = if fault(1) { vec![0, 1, 257, usize::MAX] } else { vec![3] };
        let sizes = |named: usize, short: bool| match short {
            true => [named - 1, 0],
            false => [named, named + 1],
        };
        let mut check = |bucket: usize, cells: &[u16], row_bytes: &[u8]| {
            for x in [few[5], few[5] + 1] {
                let expected = match first {
                    Some((number, named)) => refused(number, named),
                    None => Ok(searched(keys, row_bytes, x)),
                };
                assert_eq!(call::ask(keys, row_bytes, bucket, [0; 2], cells, x), expected);
                checks += 1;
            }
        };
        for bucket in buckets {
            for entries in sizes(cells.len(), fault(2)) {
                let mut cells = cells.clone();
                cells.resize(entries, 0);
                for rows in sizes(keys.len(), fault(3)) {
                    check(bucket, &cells, &vec![0; rows]);
                    check(bucket, &cells, &vec![9; rows]);
                }
            }
        }
    }
    checks
}

/// Spoiled bounds are judged at the root and at the last node only.
fn spoiled_bounds() -> usize {
    let keys = [2, 3, 8];
    let built = rowcheck::build(&keys, 2).unwrap();
    let spoiled = [
        ("left", 0, 0, 3, refused(6, 0)),
        ("left", 0, 3, 3, refused(6, 0)),
        ("left", 2, 2, 9, refused(6, 0)),
        ("right", 2, 2, 9, refused(6, 0)),
        ("right", 2, 4, 9, refused(6, 0)),
        ("right", 2, 2, 16, Ok(3)),
        ("right", 2, 2, 3, Ok(1)),
    ];
    for (store, entry, value, x, expected) in spoiled {
        let mut stores = built.stores.clone();
        match store {
            "left" => stores.left[entry] = value,
            _ => stores.right[entry] = value,
        }
        let answer = stores.neighbour(&keys, built.seed, x);
        assert_eq!(answer.map(|answer| answer.before), expected);
    }
    // Equal keys share 64 bits; only a stored length of so many is refused.
    for (length, expected) in [(64, refused(6, 0)), (63, Ok(0)), (0, Ok(0))] {
        let lengths = vec![0, length];
        let stores =
            Stores { left: vec![1, 0], right: vec![0, 2], lengths, ..Profile::Full.stores(2, 2) };
        assert_eq!(stores.neighbour(&[4, 4], 0, 4).map(|answer| answer.before), expected);
    }
    spoiled.len() + 3
}

/// One false length in the stores of the table 2, 3, 8. Its root is split 2, of length 60, and
/// split 1 has length 63 and a handle of 62 bits.
fn false_length() -> usize {
    let keys = [2, 3, 8];
    let built = rowcheck::build(&keys, 2).unwrap();
    assert_eq!(built.stores.lengths, [0, 63, 60]);
    let told = [
        // A root of more than 63 bits is refused, whatever is asked.
        (2, 64, 3, None),
        (2, 64, u64::MAX, None),
        (2, 255, 8, None),
        // With 63 bits the root's string is that of 8 and 9: others leave there, and the exit bit
        // is the last one.
        (2, 63, 3, Some((0, 0, false))),
        (2, 63, 16, Some((3, 0, false))),
        (2, 63, 8, Some((2, 0, true))),
        (2, 63, 9, Some((3, 0, false))),
        // With no bits every key has the root's string, and the exit bit is the first one.
        (2, 0, 16, Some((2, 6, false))),
        (2, 0, 1 << 63, Some((3, 6, false))),
        // Split 1 is never accepted with as many bits as `upper`, nor with fewer than its handle.
        (1, 64, 3, Some((2, 2, false))),
        (1, 255, 3, Some((2, 2, false))),
        (1, 60, 3, Some((2, 2, false))),
        // With 62 bits it is, and one probe more is made; the exit bit is then the last but one.
        (1, 62, 3, Some((1, 2, true))),
        (1, 62, 2, Some((1, 2, false))),
        // Entry 0 is not read.
        (0, 64, 3, Some((1, 1, true))),
    ];
    for (entry, length, x, expected) in told {
        let mut stores = built.stores.clone();
        stores.lengths[entry] = length;
        let answer = stores.neighbour(&keys, built.seed, x);
        let found = answer.map(|answer| (answer.before, answer.probed.len(), answer.stands));
        assert_eq!(found, expected.ok_or(Refusal { number: 6, named: 0 }), "{entry} {length} {x}");
    }
    told.len()
}

/// The rows that two asks of the smallest worked table read, by hand: map 3 has one item, and only it
/// is looked up.
fn rows_read() -> usize {
    let keys = [2, 3, 8];
    let Built { seed, stores } = rowcheck::build(&keys, 2).unwrap();
    // len of the root, its string; len of split 1 and its string; the last comparison; whether x stands.
    let told = [
        (Source::Table, 3, vec![1, 2, 2, 0, 1, 1, 1, 1], 3..6),
        (Source::Store, 3, vec![2, 1, 1, 1], 1..2),
        // 16 leaves at the root's string, and stands after all rows.
        (Source::Table, 16, vec![1, 2, 2, 2], 0..0),
        (Source::Store, 16, vec![2, 2], 0..0),
    ];
    for (source, x, read, probing) in &told {
        let walk = reads::walk(*source, &keys, seed, &stores, *x);
        assert_eq!((&walk.read, &walk.probing), (read, probing), "{x}");
    }
    told.len()
}

/// What the walk makes of false lengths, held to a second walk that takes len from the store too.
/// Every kind of outcome is to be met often.
fn false_lengths() -> usize {
    let mut gen = Gen::new(9);
    let mut checks = 0;
    // An over-long root refused, bounds refused, the answer over true lengths, and another one.
    let mut seen = [0; 4];
    for round in 0..2000 {
        let n = 2 + gen.below(30) as usize;
        let mut keys = deep_table(n, &mut gen);
        let Built { seed, mut stores } = rowcheck::build(&keys, 2).unwrap();
        let (built, root) = (stores.clone(), usize::from(stores.left[0]));
        let most = [64, 66, 256][round % 3];
        for length in &mut stores.lengths {
            // Some lengths stay true, so that walks get far.
            if gen.below(3) > 0 {
                *length = gen.below(most) as u8;
            }
        }
        if round % 4 > 0 {
            stores.lengths[root] = built.lengths[root];
        }
        if round % 5 == 0 {
            stores.handles.fill_with(|| gen.below(n as u64 + 2) as u16);
        }
        if round % 5 == 1 {
            stores.right.fill_with(|| gen.below(n as u64 + 2) as u16);
        }
        // No length is looked up in the table, so it need not rise.
        if round % 7 == 0 {
            keys.reverse();
        }
        for x in asks(&keys, 20, &mut gen) {
            let answer = stores.neighbour(&keys, seed, x);
            assert_eq!(answer, reads::walk(Source::Store, &keys, seed, &stores, x).answer);
            let told = match &answer {
                Err(_) if stores.lengths[root] > 63 => 0,
                Err(_) => 1,
                Ok(_) if answer == built.neighbour(&keys, seed, x) => 2,
                Ok(_) => 3,
            };
            assert_eq!(stores.lengths[root] > 63, told == 0);
            assert!(answer.map_or(0, |answer| answer.probed.len()) <= 6);
            seen[told] += 1;
            checks += 1;
        }
    }
    assert!(seen.iter().all(|&count| count > 1000), "{seen:?}");
    checks
}

/// Refusal 4. Every set of stores is too short in turn, by one entry and by all, and the others are
/// just long enough. The seeds jam where some do: a short store is judged before a jam.
fn short_stores() -> usize {
    // Work has the length that the keys want, for no key and for one too.
    assert_eq!(full::named(0, 2), [18, 9, 0, 0, 18, 0]);
    assert_eq!(full::named(1, 2), [18, 9, 1, 1, 20, 1]);
    assert_eq!(slim::named(0, 2), [9, 9, 0, 0, 18, 0]);
    assert_eq!(slim::named(1, 2), [9, 9, 1, 1, 20, 1]);
    // Seven keys by twos are four delimiters, with two handles.
    assert_eq!(slim::named(7, 2), [15, 9, 4, 4, 44, 4]);
    assert_eq!(slim::named(32_768, 256), [41_295, 165, 128, 128, 148_126, 128]);
    let mut checks = 6;
    for n in [0, 1, 2, 3, 5, 17, 40] {
        for bucket in [2, 3, 256] {
            for profile in Profile::BOTH {
                checks += check_short(profile, &samples::table("spread", n), bucket);
            }
        }
    }
    checks
}

fn check_short(profile: Profile, keys: &[u64], bucket: usize) -> usize {
    let mut checks = 0;
    let named = profile.named(keys.len(), bucket);
    let mut seeds = [0; 3];
    for (map, wanted) in profile.maps(keys, bucket) {
        seeds[map - 1] = (0..64).find(|&seed| jams_under(&wanted, seed)).unwrap_or(0);
    }
    for set in 1..64 {
        let short = |i: usize| set >> i & 1 == 1;
        let Some(first) = (0..6).find(|&i| short(i) && named[i] > 0) else { continue };
        let all = [0, 1, 2, 3, 4, 5];
        let by_one = all.map(|i| named[i].saturating_sub(usize::from(short(i))));
        let by_all = all.map(|i| if short(i) { 0 } else { named[i] });
        for sizes in [by_one, by_all] {
            let refusal = Refusal { number: 4, named: first + 1 };
            check_refused(profile, keys, bucket, seeds, sizes, refusal);
            checks += 1;
        }
    }
    checks
}

fn jams_under(wanted: &[(u64, u16)], seed: u64) -> bool {
    let items = items_of(wanted);
    let peeling = maps::peel(&maps::triples(&items, seed), maps::cell_count(items.len()));
    !peeling.jam.is_empty()
}

/// What a build is to say of these seeds where nothing else is wrong: the first map with a jam, and
/// the size of its largest one.
fn expected(
    profile: Profile,
    keys: &[u64],
    bucket: usize,
    seeds: [u64; 3],
) -> Result<(), BuildRefusal> {
    for (map, wanted) in profile.maps(keys, bucket) {
        let jammed = jam_by_rounds(&maps::triples(&items_of(&wanted), seeds[map - 1])).len();
        if jammed > 0 {
            return Err(BuildRefusal { refusal: jam(map), jammed });
        }
    }
    Ok(())
}

/// The sizes that builds tell of, in all maps and from the smallest jam to that of a whole table.
fn jam_sizes() -> usize {
    let mut gen = Gen::new(7);
    let mut checks = 0;
    for profile in Profile::BOTH {
        let mut seen = [(); 4].map(|_| BTreeSet::new());
        for round in 0..6000 {
            let n = round % 60;
            let keys = gen.rising(n, Gen::next);
            let bucket = [2, 3, 16][round / 2000];
            let seeds = [gen.next(), gen.next(), gen.next()];
            let said = profile.build(&keys, bucket, seeds, &mut profile.stores(n, bucket));
            assert_eq!(said, expected(profile, &keys, bucket, seeds));
            let map = said.err().map_or(0, |refused| refused.refusal.named);
            seen[map].insert(full::jammed(&said));
            checks += 1;
        }
        assert_eq!(seen[0], BTreeSet::from([0]));
        for (map, _) in profile.maps(&RISING, 2) {
            assert!(seen[map].len() > 10 && seen[map].first() == Some(&2));
        }
        assert_eq!(seen[2].is_empty(), profile == Profile::Slim);
    }

    // All the keys of a table, in jams of two, which only together are the largest, and in one jam.
    for n in [2, 4, 10, 12, 300] {
        let (seed, centre) = (gen.next(), gen.next());
        let twos: Vec<u64> = (0..n / 2).flat_map(|_| plant::pair(seed, n, &mut gen)).collect();
        let others = (1..n).map(|_| plant::partner(centre, seed, n, &mut gen));
        let one: Vec<u64> = others.chain([centre]).collect();
        for mut keys in [twos, one] {
            keys.sort();
            for profile in Profile::BOTH {
                let said = profile.build(&keys, 16, [seed; 3], &mut profile.stores(n, 16));
                assert_eq!(said, Err(BuildRefusal { refusal: jam(1), jammed: n }));
                checks += 1;
            }
        }
    }
    checks
}

/// What builds leave in stores that are longer than they must be. Every set of the maps is made to
/// jam, each map by a seed of its own that is searched for.
fn lent_memory() -> usize {
    let mut gen = Gen::new(5);
    let mut checks = 0;
    for profile in Profile::BOTH {
        let mut seen = vec![0; profile.jammable().len()];
        for round in 0..240 {
            let keys = gen.rising(round % 60, Gen::next);
            let bucket = [2, 3, 7, 256][round / 60];
            let maps = profile.maps(&keys, bucket);
            let sets = profile.jammable();
            for (&set, seen) in sets.iter().zip(&mut seen) {
                let jams = |map: usize| set >> (map - 1) & 1 == 1;
                let from = gen.next() >> 1;
                let mut seeds = [from; 3];
                let found = maps.iter().all(|(map, wanted)| {
                    let mut some = from..from + 200;
                    let seed = some.find(|&seed| jams_under(wanted, seed) == jams(*map));
                    seeds[map - 1] = seed.unwrap_or(from);
                    seed.is_some()
                });
                if found {
                    let first = maps.iter().map(|(map, _)| *map).find(|&map| jams(map));
                    check_left(profile, &keys, bucket, seeds, first.map(jam));
                    *seen += 1;
                }
            }
            // The same seed for all maps.
            for seed in 0..10 {
                let first = maps.iter().find(|(_, wanted)| jams_under(wanted, seed));
                check_left(profile, &keys, bucket, [seed; 3], first.map(|(map, _)| jam(*map)));
                checks += 1;
            }
        }
        // Small tables jam often enough for every set of the profile's maps.
        let often = if profile == Profile::Full { 40 } else { 20 };
        assert!(seen.iter().all(|&count| count > often), "{seen:?}");
        checks += seen.iter().sum::<usize>();
    }
    checks
}

/// Builds, expecting this refusal or none, and looks at all that is left in the stores.
fn check_left(
    profile: Profile,
    keys: &[u64],
    bucket: usize,
    seeds: [u64; 3],
    refusal: Option<Refusal>,
) {
    let n = keys.len();
    let named = profile.named(n, bucket);
    let mut stores = Stores::filled(named.map(|length| length + 5), pattern);
    let before = stores.clone();
    let said = profile.build(keys, bucket, seeds, &mut stores);
    assert_eq!(said, expected(profile, keys, bucket, seeds));
    assert_eq!(said.err().map(|refused| refused.refusal), refusal);
    for (i, (store, before)) in stores.all().iter().zip(before.all()).enumerate() {
        assert_eq!(store[named[i]..], before[named[i]..]);
    }
    let zero = |entries: &[u16]| entries.iter().all(|&entry| entry == 0);
    assert!(zero(&stores.work[..named[4]]));
    if refusal.is_some() {
        assert!(stores.all().iter().zip(named).all(|(store, length)| zero(&store[..length])));
        return;
    }
    for (map, wanted) in profile.maps(keys, bucket) {
        let cells = match map {
            1 => &stores.cells[..],
            2 => &stores.cells[maps::cell_count(n)..],
            _ => &stores.handles,
        };
        check_map(&wanted, seeds[map - 1], cells);
    }
    let near = profile.neighbours(keys, bucket);
    let (k, wanted) = (near.len(), neighbour::wanted(&near));
    assert_eq!(stores.left[..k], wanted.left);
    assert_eq!(stores.right[..k], wanted.right);
    check_lengths(&near, &stores.lengths);
    for (row, &key) in near.iter().enumerate() {
        assert_eq!(stores.neighbour(&near, seeds[2], key).unwrap().before, row);
    }
    for (row, &key) in keys.iter().enumerate() {
        let bytes = vec![0; n];
        let outcome = match profile {
            Profile::Full => stores.call(keys, &bytes, bucket, [seeds[0], seeds[1]], key).unwrap(),
            Profile::Slim => {
                slim::ask(keys, &bytes, bucket, [seeds[0], seeds[2]], &stores, key).unwrap().outcome
            }
        };
        assert_eq!(outcome, Outcome::Planned(row));
    }
}

/// Looks whether entry 0 of the lengths is 0, and counts each of the others bit by bit.
fn check_lengths(keys: &[u64], lengths: &[u8]) {
    for m in 0..keys.len() {
        let mut shared = 0;
        if m > 0 {
            let (one, other) = (reads::bits(keys[m - 1]), reads::bits(keys[m]));
            while one.as_bytes()[shared] == other.as_bytes()[shared] {
                shared += 1;
            }
        }
        assert_eq!(usize::from(lengths[m]), shared);
    }
}

/// Looks whether each item has its value, and whether the cells that no item touches are 0.
fn check_map(wanted: &[(u64, u16)], seed: u64, cells: &[u16]) {
    let items = items_of(wanted);
    for &(item, value) in wanted {
        assert_eq!(maps::lookup(item, seed, items.len(), cells), value);
    }
    let triples = maps::triples(&items, seed);
    for (cell, &value) in cells[..maps::cell_count(items.len())].iter().enumerate() {
        assert!(value == 0 || triples.iter().any(|triple| triple.contains(&cell)));
    }
}

fn planted() -> usize {
    let mut gen = Gen::new(6);
    let rounds = 2000;
    for round in 0..rounds {
        let (z, seed) = (gen.next(), gen.next());
        assert_eq!(plant::unmix(mix(z)), z);
        assert_eq!(item_hash(plant::item_of(z, seed), seed), z);
        let t = 2 + gen.below(2000) as usize;
        let cells = |items: &[u64]| -> Vec<[usize; 3]> {
            items.iter().map(|&item| maps::touched(item, seed, t)).collect()
        };
        let pair = plant::pair(seed, t, &mut gen);
        let partner = [pair[0], plant::partner(pair[0], seed, t, &mut gen)];
        let near = plant::near_pair(seed, t, round % 3, &mut gen);
        let square = plant::square(seed, t, &mut gen);
        for (items, expected) in [(pair, 2), (partner.to_vec(), 2), (near, 0), (square, 4)] {
            assert_eq!(maps::peel(&cells(&items), maps::cell_count(t)).jam.len(), expected);
        }
    }
    6 * rounds
}

fn rowcheck_example() -> usize {
    let input = "bucket=2\nkeys=3\nkey=0000000000000002\nkey=0000000000000003\n\
        key=0000000000000008\nasks=4\nask=0000000000000003\nask=0000000000000009\n\
        ask=0000000000000010\nask=0000000000000000\n";
    let output = "keys=3\nask=0000000000000003\ncall=1\nbefore=1\nprobes=1\n\
        ask=0000000000000009\ncall=none\nbefore=3\nprobes=2\n\
        ask=0000000000000010\ncall=none\nbefore=3\nprobes=0\n\
        ask=0000000000000000\ncall=none\nbefore=0\nprobes=2\n";
    assert_eq!(rowcheck::run(input.as_bytes()), output);
    // No shorter part of the text is a whole input.
    for length in 0..input.len() {
        assert_eq!(rowcheck::run(&input.as_bytes()[..length]), "refused=8\n");
    }
    1 + input.len()
}

/// The two lines of a jam under all seeds, and the one line of every refusal that goes before it.
fn rowcheck_jams() -> usize {
    let mut gen = Gen::new(8);
    let mut checks = 0;
    for n in [257, 300, 500] {
        // One key has a partner under every seed.
        let centre = gen.next();
        let partners: Vec<u64> =
            (0..256).map(|seed| plant::partner(centre, seed, n, &mut gen)).collect();
        let others: Vec<u64> = (257..n).map(|_| gen.next()).collect();
        let mut keys = [&[centre], &partners[..], &others].concat();
        keys.sort();
        let mut printed = |bucket: &str, keys: &[u64], more: &str| {
            checks += 1;
            rowcheck::run((cases::input(bucket, keys, &[1]) + more).as_bytes())
        };
        for bucket in [2, 3, 256] {
            let jammed = full::jammed(&expected(Profile::Full, &keys, bucket, [255; 3]));
            let lines = format!("refused=5\njammed={jammed}\n");
            assert_eq!(printed(&bucket.to_string(), &keys, ""), lines);
        }
        assert_eq!(printed("1", &keys, ""), "refused=2\n");
        assert_eq!(printed("257", &keys, ""), "refused=2\n");
        assert_eq!(printed("16", &keys, " "), "refused=8\n");
        keys.swap(0, 1);
        assert_eq!(printed("16", &keys, ""), "refused=3\n");
    }
    checks
}

/// `cargo test` runs what `reference selfcheck` runs.
#[test]
fn every_check_holds() {
    run();
}
