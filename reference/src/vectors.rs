//! The texts that docs/VECTORS.md describes.

use crate::call::Outcome;
use crate::full::{self, Stores};
use crate::keys::{pack, unpack, Fields};
use crate::mix::{item_hash, mix, STEP};
use crate::profile::{Built, Profile};
use crate::refusal::{BuildRefusal, Refusal};
use crate::samples::table;
use crate::slim;
use crate::table::MOST_KEYS;
use crate::{call, maps, neighbour};
use std::fmt::Write;

/// Adds one line to a text; writing to a text cannot fail.
macro_rules! line {
    ($text:expr, $($part:tt)*) => { writeln!($text, $($part)*).unwrap() };
}

pub fn text(name: &str) -> Option<String> {
    let vector = match name {
        "mixvectors" => mixvectors,
        "hashvectors" => hashvectors,
        "keyvectors" => keyvectors,
        "fullvectors" => fullvectors,
        "callvectors" => callvectors,
        "neighbourvectors" => neighbourvectors,
        "slimvectors" => slimvectors,
        _ => return None,
    };
    Some(vector())
}

/// The first outputs of SplitMix64 from a state.
pub fn splitmix(mut state: u64, count: usize) -> Vec<u64> {
    let mut outputs = Vec::new();
    for _ in 0..count {
        state = state.wrapping_add(STEP);
        outputs.push(mix(state));
    }
    outputs
}

fn mixvectors() -> String {
    let mut text = String::new();
    for output in splitmix(1_234_567, 5) {
        line!(text, "{output}");
    }
    text
}

fn hashvectors() -> String {
    let mut text = String::new();
    for t in [0, 1, 4, 11, 32_768] {
        line!(text, "t={t} m={} c={}", maps::segment(t), maps::cell_count(t));
        for seed in [0, 1, 255, u64::MAX] {
            for item in [0, 1, 1 << 63, u64::MAX, 0x0001000200018004] {
                let [a, b, c] = maps::touched(item, seed, t);
                line!(text, "{:016x} {a} {b} {c}", item_hash(item, seed));
            }
        }
    }
    text
}

fn keyvectors() -> String {
    let all_fields = [
        [1, 2, 3, 4],
        [0, 0, 0, 0],
        [65_535, 65_535, 86_399, 32_767],
        [65_535, 65_535, 107_999, 32_767],
        [65_536, 0, 0, 0],
        [0, 65_536, 0, 0],
        [0, 0, 86_400, 0],
        [0, 0, 107_999, 0],
        [0, 0, 108_000, 0],
        [0, 0, 131_071, 0],
        [0, 0, 131_072, 0],
        [0, 0, 0, 32_768],
        [u32::MAX; 4],
        [20_411, 17, 12_600, 204],
        [20_411, 17, 88_895, 205],
    ];
    let all_keys = [
        0x0001000200018004,
        0x0000000000000000,
        0xffffffffffffffff,
        0xffffffffa8bfffff,
        0xffffffffa8c00000,
        0x00000000d2efffff,
        0x00000000d2f00000,
        0xffffffffd2efffff,
        0x00000000ffff8000,
        0xfffffffffffffffe,
        0x4fbb0011189c00cc,
        0x4fbb0011ad9f80cd,
        0x8000000000000000,
    ];
    let mut text = String::new();
    for [day, stop, second, block] in all_fields {
        match pack(Fields { day, stop, second, block }) {
            Ok(key) => line!(text, "key={key:016x}"),
            Err(refusal) => line!(text, "refused={}", refusal.number),
        }
    }
    for key in all_keys {
        match unpack(key) {
            Ok(Fields { day, stop, second, block }) => {
                line!(text, "day={day} stop={stop} second={second} block={block}")
            }
            Err(refusal) => line!(text, "refused={}", refusal.number),
        }
    }
    text
}

fn said(result: Result<(), BuildRefusal>) -> String {
    let jammed = full::jammed(&result);
    match result {
        Ok(()) => format!("taken.{jammed}"),
        Err(BuildRefusal { refusal: Refusal { number, named }, .. }) => {
            format!("refused={number}.{named}.{jammed}")
        }
    }
}

/// The stores under the first seed of 0 to 255, the same for all maps, that the build takes.
fn first_taken(profile: Profile, keys: &[u64], bucket: usize) -> Built {
    profile.built(keys, bucket).expect("some seed is taken for each table of the vectors")
}

fn fullvectors() -> String {
    let mut text = String::new();
    verdicts(&mut text, Profile::Full);
    refusals(&mut text, Profile::Full);
    answers(&mut text, Profile::Full);
    text
}

fn callvectors() -> String {
    let mut text = String::new();
    outcomes(&mut text, Profile::Full);
    unbuilt(&mut text);
    text
}

fn neighbourvectors() -> String {
    let mut text = String::new();
    for (name, n) in tables(&[0, 1, 2, 3, 5, 17, 64, 65, 257, 2000]) {
        let keys = table(name, n);
        let Built { seed, stores } = first_taken(Profile::Full, &keys, 2);
        line!(text, "table={name} keys={n} seed={seed}");
        for (rule, stores) in spoiled(n, stores) {
            let places = place_words("digest", Profile::Full, &keys, 2, seed, &stores);
            line!(text, "stores={rule} {places}");
        }
    }
    text
}

fn slimvectors() -> String {
    let mut text = String::new();
    verdicts(&mut text, Profile::Slim);
    refusals(&mut text, Profile::Slim);
    outcomes(&mut text, Profile::Slim);
    answers(&mut text, Profile::Slim);
    slim_spoiled(&mut text);
    text
}

/// The tables of so many keys: of each size those four, but `bits` has 65 keys at most.
fn tables(sizes: &[usize]) -> Vec<(&'static str, usize)> {
    let mut tables = Vec::new();
    for name in ["sequential", "spread", "clustered", "bits"] {
        for &n in sizes {
            if name != "bits" || n <= 65 {
                tables.push((name, n));
            }
        }
    }
    tables
}

/// Builds in stores of these sizes, whose entry i holds mix(i + 1) before, modulo 65536 or, in the
/// lengths, 256; and takes what is left in them into the digest.
fn tried(
    profile: Profile,
    keys: &[u64],
    bucket: usize,
    seeds: [u64; 3],
    sizes: [usize; 6],
    digest: &mut u64,
) -> String {
    let mut stores = Stores::filled(sizes, |i| (mix(i as u64 + 1) % 65_536) as u16);
    let result = profile.build(keys, bucket, seeds, &mut stores);
    // Which filling of the maps is written after acceptance is free.
    let told = if result.is_ok() { 2 } else { 0 };
    for &entry in stores.all()[told..].iter().flatten() {
        *digest = mix(digest.wrapping_add(u64::from(entry)));
    }
    said(result)
}

/// The same seed for all maps, and for each map alone.
fn seeds_tried(profile: Profile, seed: u64) -> Vec<(&'static str, [u64; 3])> {
    let (one, two, three) = ([seed, 0, 0], [0, seed, 0], [0, 0, seed]);
    match profile {
        Profile::Full => {
            vec![("all", [seed; 3]), ("one", one), ("two", two), ("three", three)]
        }
        Profile::Slim => vec![("both", [seed; 3]), ("one", one), ("three", three)],
    }
}

fn verdicts(text: &mut String, profile: Profile) {
    let longer = profile.named(300, 2).map(|length| length + 16);
    for name in ["sequential", "spread", "clustered"] {
        for n in [0, 1, 2, 3, 4, 5, 8, 13, 21, 34, 55, 300] {
            let keys = table(name, n);
            for bucket in [2, 3, 16] {
                line!(text, "table={name} keys={n} bucket={bucket}");
                for seed in 0..16 {
                    write!(text, "seed={seed}").unwrap();
                    let mut digest = 1;
                    for (tag, seeds) in seeds_tried(profile, seed) {
                        let said = tried(profile, &keys, bucket, seeds, longer, &mut digest);
                        write!(text, " {tag}={said}").unwrap();
                    }
                    line!(text, " stores={digest:016x}");
                }
            }
        }
    }
    let (n, bucket) = (MOST_KEYS, 256);
    for name in ["spread", "clustered"] {
        line!(text, "table={name} keys={n} bucket={bucket}");
        // With seed 0 all these builds are one.
        let mut stores = profile.stores(n, bucket);
        let said = said(profile.build(&table(name, n), bucket, [0; 3], &mut stores));
        write!(text, "seed=0").unwrap();
        for (tag, _) in seeds_tried(profile, 0) {
            write!(text, " {tag}={said}").unwrap();
        }
        text.push('\n');
    }
}

fn refusals(text: &mut String, profile: Profile) {
    let (n, bucket) = (17, 3);
    let mut refused = |tag: &str, keys: &[u64], bucket_size: usize, short: usize| {
        let mut sizes = profile.named(n, bucket);
        for (i, size) in sizes.iter_mut().enumerate() {
            *size -= short >> i & 1;
        }
        let mut digest = 1;
        let said = tried(profile, keys, bucket_size, [0; 3], sizes, &mut digest);
        line!(text, "{tag} said={said} stores={digest:016x}");
    };
    let mut keys = table("spread", n);
    for short in 0..64 {
        refused(&format!("short={short}"), &keys, bucket, short);
    }
    // Each of these has all the faults that are judged later.
    keys.reverse();
    refused("turned", &keys, bucket, 63);
    refused("bucket=1", &keys, 1, 63);
    refused("bucket=257", &keys, 257, 63);
    let keys = table("spread", MOST_KEYS + 1);
    refused(&format!("keys={}", keys.len()), &keys, 257, 63);
}

/// The tables over which the indexes are asked: name and number of keys.
pub fn answer_tables() -> Vec<(&'static str, usize)> {
    tables(&[0, 1, 2, 3, 5, 17, 64, 65, 256, 257, 2000])
}

fn answers(text: &mut String, profile: Profile) {
    for (name, n) in answer_tables() {
        let keys = table(name, n);
        for bucket in [2, 3, 16, 255, 256] {
            let Built { seed, stores } = first_taken(profile, &keys, bucket);
            let words = both_words(profile, &keys, bucket, seed, &stores);
            line!(text, "table={name} keys={n} bucket={bucket} seed={seed} {words}");
        }
    }
}

/// Each key with the keys below and above it, in row order, and at last the two ends.
pub fn asks(keys: &[u64]) -> Vec<u64> {
    let mut asks = Vec::new();
    for &key in keys {
        asks.extend([key, key.wrapping_sub(1), key.wrapping_add(1)]);
    }
    asks.extend([0, u64::MAX]);
    asks
}

fn refusal_code(refusal: Refusal) -> u64 {
    (1 << 32) + u64::from(refusal.number)
}

/// Row bytes of which about every fourth is not 0.
fn mixed_bytes(n: usize) -> Vec<u8> {
    let byte = |i: u64| match mix(i + 23) % 4 {
        0 => 1 + mix(i + 29) % 255,
        _ => 0,
    };
    (0..n as u64).map(|i| byte(i) as u8).collect()
}

/// What a profile tells of x, where one seed is that of all maps.
fn outcome(
    profile: Profile,
    keys: &[u64],
    row_bytes: &[u8],
    bucket: usize,
    seed: u64,
    stores: &Stores,
    x: u64,
) -> Result<Outcome, Refusal> {
    match profile {
        Profile::Full => stores.call(keys, row_bytes, bucket, [seed; 2], x),
        Profile::Slim => {
            slim::ask(keys, row_bytes, bucket, [seed; 2], stores, x).map(|answer| answer.outcome)
        }
    }
}

/// How many asks gave a planned and how many a withdrawn row, and the digest of all answers.
struct Found {
    planned: usize,
    withdrawn: usize,
    digest: u64,
}

fn ask_outcomes(
    profile: Profile,
    keys: &[u64],
    row_bytes: &[u8],
    bucket: usize,
    seed: u64,
    stores: &Stores,
) -> Found {
    let mut told = Found { planned: 0, withdrawn: 0, digest: 1 };
    for x in asks(keys) {
        let code = match outcome(profile, keys, row_bytes, bucket, seed, stores, x) {
            Ok(Outcome::Planned(row)) => {
                told.planned += 1;
                row as u64 + 1
            }
            Ok(Outcome::Withdrawn(row)) => {
                told.withdrawn += 1;
                65_536 + row as u64 + 1
            }
            Ok(Outcome::Absent) => 0,
            Err(refusal) => refusal_code(refusal),
        };
        told.digest = mix(told.digest.wrapping_add(code));
    }
    told
}

/// What the asks tell where all row bytes are 0, the digest after this tag, and where they are mixed.
fn outcome_words(
    tag: &str,
    profile: Profile,
    keys: &[u64],
    bucket: usize,
    seed: u64,
    stores: &Stores,
) -> String {
    let n = keys.len();
    let Found { planned, withdrawn, digest } =
        ask_outcomes(profile, keys, &vec![0; n], bucket, seed, stores);
    let found = planned + withdrawn;
    let zero = format!("found={found} {tag}={digest:016x}");
    let Found { withdrawn, digest, .. } =
        ask_outcomes(profile, keys, &mixed_bytes(n), bucket, seed, stores);
    format!("{zero} withdrawn={withdrawn} marked={digest:016x}")
}

/// The sum and the largest of the probe counts, and, after this tag, the digest of all places.
fn place_words(
    tag: &str,
    profile: Profile,
    keys: &[u64],
    bucket: usize,
    seed: u64,
    stores: &Stores,
) -> String {
    let row_bytes = vec![0; keys.len()];
    let place = |x: u64| match profile {
        Profile::Full => stores.neighbour(keys, seed, x),
        Profile::Slim => {
            slim::ask(keys, &row_bytes, bucket, [seed; 2], stores, x).map(|answer| answer.near)
        }
    };
    let (mut sum, mut most, mut digest) = (0, 0, 1u64);
    for x in asks(keys) {
        let code = match place(x) {
            Ok(answer) => {
                let probes = answer.probed.len() as u64;
                sum += probes;
                most = most.max(probes);
                answer.before as u64 * 65_536 + probes * 16 + u64::from(answer.stands)
            }
            Err(refusal) => refusal_code(refusal),
        };
        digest = mix(digest.wrapping_add(code));
    }
    format!("probes={sum} most={most} {tag}={digest:016x}")
}

/// The outcomes and the places.
fn both_words(profile: Profile, keys: &[u64], bucket: usize, seed: u64, stores: &Stores) -> String {
    let outcomes = outcome_words("call", profile, keys, bucket, seed, stores);
    let places = place_words("neighbour", profile, keys, bucket, seed, stores);
    format!("{outcomes} {places}")
}

fn outcome_word(outcome: Outcome) -> String {
    match outcome {
        Outcome::Planned(row) => format!("planned.{row}"),
        Outcome::Withdrawn(row) => format!("withdrawn.{row}"),
        Outcome::Absent => "absent".to_string(),
    }
}

/// The seeds of maps 1, 2 and 3 where single keys are asked. The slim ask takes two, which differ.
fn single_seeds(profile: Profile) -> [u64; 3] {
    match profile {
        Profile::Full => [0, 0, 0],
        Profile::Slim => [0, 0, 2],
    }
}

/// What an ask of a profile says, as a word.
fn told(
    profile: Profile,
    keys: &[u64],
    row_bytes: &[u8],
    bucket: usize,
    stores: &Stores,
    x: u64,
) -> String {
    let [one, two, three] = single_seeds(profile);
    let said = match profile {
        Profile::Full => stores.call(keys, row_bytes, bucket, [one, two], x).map(outcome_word),
        Profile::Slim => {
            slim::ask(keys, row_bytes, bucket, [one, three], stores, x).map(|answer| {
                let near = answer.near;
                let (before, probes, stands) = (near.before, near.probed.len(), near.stands as u8);
                format!("{}@{before}.{probes}.{stands}", outcome_word(answer.outcome))
            })
        }
    };
    said.unwrap_or_else(|Refusal { number, named }| format!("refused={number}.{named}"))
}

/// The stores that an ask of outcomes reads, by their numbers.
fn asked(profile: Profile) -> &'static [usize] {
    match profile {
        Profile::Full => &[1, 7],
        Profile::Slim => &[1, 2, 3, 4, 6, 7],
    }
}

fn shorten<T>(store: &mut Vec<T>) {
    store.pop();
}

/// Stores and row bytes, of which those in the mask lack their last entry.
fn shortened(
    profile: Profile,
    mask: usize,
    stores: &Stores,
    row_bytes: &[u8],
) -> (Stores, Vec<u8>) {
    let (mut stores, mut row_bytes) = (stores.clone(), row_bytes.to_vec());
    for (i, store) in asked(profile).iter().enumerate() {
        if mask >> i & 1 == 1 {
            match store {
                1 => shorten(&mut stores.cells),
                2 => shorten(&mut stores.handles),
                3 => shorten(&mut stores.left),
                4 => shorten(&mut stores.right),
                6 => shorten(&mut stores.lengths),
                _ => shorten(&mut row_bytes),
            }
        }
    }
    (stores, row_bytes)
}

fn outcomes(text: &mut String, profile: Profile) {
    let (n, bucket) = (17, 3);
    let keys = table("spread", n);
    let mut stores = profile.stores(n, bucket);
    profile
        .build(&keys, bucket, single_seeds(profile), &mut stores)
        .expect("these seeds are taken");
    let row = 5;
    for byte in [0, 1, 2, 127, 128, 255] {
        for others in [0, 255] {
            let mut row_bytes = vec![others; n];
            row_bytes[row] = byte;
            let asks = [keys[row - 1], keys[row], keys[row + 1], keys[row] + 1];
            let [below, at, above, absent] =
                asks.map(|x| told(profile, &keys, &row_bytes, bucket, &stores, x));
            line!(
                text,
                "byte={byte} others={others} below={below} at={at} above={above} absent={absent}"
            );
        }
    }
    let mut two = |tag: &str, keys: &[u64], row_bytes: &[u8], bucket: usize, stores: &Stores| {
        let [planned, absent] =
            [keys[row], keys[row] + 1].map(|x| told(profile, keys, row_bytes, bucket, stores, x));
        line!(text, "{tag} planned={planned} absent={absent}");
    };
    let mut row_bytes = vec![255; n];
    row_bytes[row] = 0;
    let all = (1 << asked(profile).len()) - 1;
    for mask in 0..=all {
        let (stores, row_bytes) = shortened(profile, mask, &stores, &row_bytes);
        two(&format!("short={mask}"), &keys, &row_bytes, bucket, &stores);
    }
    two("long", &keys, &[&row_bytes[..], &[255]].concat(), bucket, &stores);
    // Each of these has all the faults that are judged later.
    let (stores, row_bytes) = shortened(profile, all, &stores, &row_bytes);
    two("bucket=1", &keys, &row_bytes, 1, &stores);
    two("bucket=257", &keys, &row_bytes, 257, &stores);
    let keys = table("spread", MOST_KEYS + 1);
    two(&format!("keys={}", keys.len()), &keys, &row_bytes, 257, &stores);
}

/// Cells that no build left, for n keys in so many cells.
fn cells_by(rule: &str, n: usize, cells: usize) -> Vec<u16> {
    let cell = |i: usize| match rule {
        "few" if i < maps::cell_count(n) => mix(i as u64 + 7) % 4,
        "random" => mix(i as u64 + 1_000_003) % 65_536,
        _ => 0,
    };
    (0..cells).map(|i| cell(i) as u16).collect()
}

const CELL_RULES: [&str; 3] = ["zero", "few", "random"];

fn unbuilt(text: &mut String) {
    for (name, n) in tables(&[0, 1, 2, 3, 17, 64, 65, 256, 257, 2000]) {
        for bucket in [2, 3, 16, 255, 256] {
            line!(text, "table={name} keys={n} bucket={bucket}");
            let mut keys = table(name, n);
            for turned in ["", "-turned"] {
                for rule in CELL_RULES {
                    let cells = cells_by(rule, n, call::cells_named(n, bucket));
                    let stores = Stores { cells, ..Stores::default() };
                    let words = outcome_words("digest", Profile::Full, &keys, bucket, 0, &stores);
                    line!(text, "cells={rule}{turned} {words}");
                }
                keys.reverse();
            }
        }
    }
}

/// The stores of a neighbour index of n keys, spoiled by each rule in turn.
fn spoiled(n: usize, mut built: Stores) -> Vec<(&'static str, Stores)> {
    let size = n as u64;
    let root = built.left.first().map_or(0, |&root| usize::from(root));
    let numbers = |from: usize, to: usize, add: u64, modulus: u64| {
        (from..to).map(move |i| (mix(i as u64 + add) % modulus) as u16)
    };
    built.handles = numbers(0, neighbour::handles_named(n), 7, size + 1).collect();
    let bounds = ["handles", "root", "left", "right", "over", "all"];
    let lengths = ["lengths", "long", "zero-lengths", "false-split", "long-split"];
    let spoil = |rule: &str| {
        let mut stores = built.clone();
        match rule {
            "root" if n > 0 => stores.left[0] = n as u16,
            "left" if n > 0 => {
                stores.left.truncate(1);
                stores.left.extend(numbers(1, n, 11, size + 1));
            }
            "right" if n > 0 => {
                stores.right.truncate(1);
                stores.right.extend(numbers(1, n, 13, size + 2));
            }
            "over" if n > 0 => stores.right[1..].fill(n as u16 + 1),
            "all" => {
                stores.left = numbers(0, n, 17, size + 2).collect();
                stores.right = numbers(0, n, 17, size + 2).collect();
            }
            "lengths" if n > 0 => {
                stores.lengths.truncate(1);
                stores.lengths.extend(numbers(1, n, 19, 66).map(|length| length as u8));
            }
            "long" if n > 0 => stores.lengths[root] = 64,
            "zero-lengths" => stores.lengths.fill(0),
            "false-split" | "long-split" => {
                let split = n / 3 + 1;
                stores.handles.fill(split as u16);
                if split < n {
                    stores.lengths[split] = if rule == "false-split" { 60 } else { 64 };
                }
            }
            _ => {}
        }
        stores
    };
    bounds.into_iter().chain(lengths).map(|rule| (rule, spoil(rule))).collect()
}

/// What the build with B = 256 leaves, in stores for another bucket size: up to 256 keys are one
/// bucket there, and the offset of each is its row. The root is the last split, and so long that
/// keys leave there with none before them; so they are found in their own rows, past the end of
/// bucket 0.
fn past(keys: &[u64], bucket: usize, seed: u64) -> Stores {
    let built = Profile::Slim.built_with(keys, 256, seed);
    let mut stores = built.expect("map 1 is the same for all bucket sizes").stores;
    let [_, handles, k, ..] = slim::named(keys.len(), bucket);
    stores.handles.resize(handles, 0);
    stores.left.resize(k, 0);
    stores.right.resize(k, 0);
    stores.lengths.resize(k, 0);
    if k > 0 {
        stores.left[0] = k as u16 - 1;
        stores.lengths[k - 1] = 63;
    }
    stores
}

/// The table turned round, and stores that lead the walk from split 1 to all its rows: the rules speak of
/// tables that fall too.
fn turned(keys: &[u64], bucket: usize) -> (Vec<u64>, Stores) {
    let (n, k) = (keys.len(), call::bucket_count(keys.len(), bucket));
    let mut stores = Profile::Slim.stores(n, bucket);
    stores.cells = cells_by("few", n, maps::cell_count(n));
    if k > 0 {
        stores.left[0] = 1;
        stores.right[1..].fill(k as u16);
    }
    (keys.iter().rev().copied().collect(), stores)
}

fn slim_spoiled(text: &mut String) {
    for (name, n) in tables(&[0, 1, 2, 3, 5, 17, 64, 65, 300]) {
        let keys = table(name, n);
        for bucket in [2, 3, 16] {
            let Built { seed, stores } = first_taken(Profile::Slim, &keys, bucket);
            line!(text, "table={name} keys={n} bucket={bucket} seed={seed}");
            let mut rules = Vec::new();
            for rule in CELL_RULES {
                let cells = cells_by(rule, n, maps::cell_count(n));
                rules.push((rule, Stores { cells, ..stores.clone() }));
            }
            let past = past(&keys, bucket, seed);
            let wide = Stores { cells: vec![256; maps::cell_count(n)], ..past.clone() };
            rules.extend([("past", past), ("wide", wide)]);
            rules.extend(spoiled(call::bucket_count(n, bucket), stores));
            for (rule, stores) in rules {
                let words = both_words(Profile::Slim, &keys, bucket, seed, &stores);
                line!(text, "stores={rule} {words}");
            }
            let (keys, stores) = turned(&keys, bucket);
            let words = both_words(Profile::Slim, &keys, bucket, seed, &stores);
            line!(text, "stores=turned {words}");
        }
    }
}
