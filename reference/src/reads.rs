//! How many rows of the table a walk reads, where len is worked out from the table and where it is
//! stored. The walk stands here a second time, over any source of len, and reads keys as text.

use crate::full::Stores;
use crate::maps;
use crate::neighbour::{handle_count, Answer};
use crate::profile::Built;
use crate::refusal::{Refusal, SPOILED_BOUNDS};
use crate::{rowcheck, samples, vectors};
use std::cell::RefCell;
use std::collections::BTreeSet;
use std::fmt::Write;
use std::ops::Range;

/// Where a walk takes len(m) from.
#[derive(Clone, Copy)]
pub enum Source {
    /// From rows m − 1 and m.
    Table,
    /// From entry m of the stored lengths.
    Store,
}

/// A key as its 64 bits, the highest first.
pub fn bits(key: u64) -> String {
    format!("{key:064b}")
}

/// A table that notes which rows are read.
struct Table<'a> {
    keys: &'a [u64],
    read: RefCell<Vec<usize>>,
}

impl Table<'_> {
    fn key(&self, row: usize) -> u64 {
        self.read.borrow_mut().push(row);
        self.keys[row]
    }

    fn reads(&self) -> usize {
        self.read.borrow().len()
    }

    fn len(&self, source: Source, lengths: &[u8], m: usize) -> usize {
        match source {
            Source::Table => {
                let (one, other) = (bits(self.key(m - 1)), bits(self.key(m)));
                one.bytes().zip(other.bytes()).take_while(|(a, b)| a == b).count()
            }
            Source::Store => usize::from(lengths[m]),
        }
    }
}

/// What a walk answers, which rows it reads, in order, and which of these reads are the probes'.
pub struct Walk {
    pub answer: Result<Answer, Refusal>,
    pub read: Vec<usize>,
    pub probing: Range<usize>,
}

/// The walk over stores that are long enough.
pub fn walk(source: Source, keys: &[u64], seed: u64, stores: &Stores, x: u64) -> Walk {
    let table = Table { keys, read: RefCell::default() };
    let mut probing = 0..0;
    let placed = place(source, &table, seed, stores, x, &mut probing);
    let answer = placed.map(|(before, probed)| {
        let stands = before < keys.len() && table.key(before) == x;
        Answer { before, probed, stands }
    });
    Walk { answer, read: table.read.into_inner(), probing }
}

/// The number before and the probed lengths.
fn place(
    source: Source,
    table: &Table,
    seed: u64,
    stores: &Stores,
    x: u64,
    probing: &mut Range<usize>,
) -> Result<(usize, Vec<u32>), Refusal> {
    let n = table.keys.len();
    let len = |m: usize| table.len(source, &stores.lengths, m);
    // One of two numbers: the second where x is above the key in this row.
    let above = |row: usize, numbers: [usize; 2]| numbers[usize::from(x > table.key(row))];
    if n < 2 {
        return Ok((if n == 0 { 0 } else { above(0, [0, 1]) }, Vec::new()));
    }
    let mut node = usize::from(stores.left[0]);
    if !(1..n).contains(&node) {
        return Err(SPOILED_BOUNDS);
    }
    let mut lower = len(node);
    if lower > 63 {
        return Err(SPOILED_BOUNDS);
    }
    if !bits(x).starts_with(&bits(table.key(node))[..lower]) {
        return Ok((above(node, [0, n]), Vec::new()));
    }

    let start = table.reads();
    let mut upper = 64;
    let mut probed = Vec::new();
    while let Some(f) = (lower + 1..upper).max_by_key(|f| f.trailing_zeros()) {
        probed.push(f as u32);
        let marked = format!("{}1", &bits(x)[..f]);
        let item = u64::from_str_radix(&format!("{marked:0<64}"), 2).unwrap();
        let m = usize::from(maps::lookup(item, seed, handle_count(n), &stores.handles));
        let length = (1..n).contains(&m).then(|| len(m));
        let fits = length.filter(|length| (f..upper).contains(length));
        match fits.filter(|&length| bits(x).starts_with(&bits(table.key(m))[..length])) {
            Some(length) => (node, lower) = (m, length),
            None => upper = f,
        }
    }
    *probing = start..table.reads();

    let (a, b) = (usize::from(stores.left[node]), usize::from(stores.right[node]));
    if !(a < node && node < b && b <= n) {
        return Err(SPOILED_BOUNDS);
    }
    let before = if bits(x).as_bytes()[lower] == b'0' {
        above(a, [a, node])
    } else {
        above(node, [node, b])
    };
    Ok((before, probed))
}

/// What is counted of all the walks over a table.
#[derive(Clone, Copy, Default)]
struct Counts {
    asks: usize,
    reads: usize,
    /// The most reads of one ask.
    most: usize,
    /// The reads of the probes alone.
    by_probes: usize,
    /// The rows that each ask reads, one that it reads twice counted once.
    different: usize,
}

impl Counts {
    fn add(&mut self, other: Counts) {
        self.asks += other.asks;
        self.reads += other.reads;
        self.most = self.most.max(other.most);
        self.by_probes += other.by_probes;
        self.different += other.different;
    }

    fn of(walk: &Walk) -> Counts {
        let reads = walk.read.len();
        let different = walk.read.iter().collect::<BTreeSet<_>>().len();
        Counts { asks: 1, reads, most: reads, by_probes: walk.probing.len(), different }
    }

    /// The means of an ask, with one decimal, and the most.
    fn line(&self) -> String {
        let mean = |count: usize| format!("{:.1}", count as f64 / self.asks as f64);
        let [reads, by_probes, different] = [self.reads, self.by_probes, self.different].map(mean);
        format!("reads={reads} most={} by-probes={by_probes} different={different}", self.most)
    }
}

/// A line for each table of the vectors and one for all of them: how many asks there are, and what a
/// walk reads with len from the table, as before request Six, and with the stored lengths. Each time
/// that the document's walk needs a key counts as a read.
pub fn text() -> String {
    let mut text = String::new();
    let mut all = [Counts::default(); 2];
    for (name, n) in vectors::answer_tables() {
        let keys = samples::table(name, n);
        let Built { seed, stores } = rowcheck::build(&keys, 2).unwrap();
        let counts = [Source::Table, Source::Store].map(|source| {
            let mut counts = Counts::default();
            for x in vectors::asks(&keys) {
                counts.add(Counts::of(&walk(source, &keys, seed, &stores, x)));
            }
            counts
        });
        line(&mut text, &format!("table={name} keys={n}"), counts);
        all[0].add(counts[0]);
        all[1].add(counts[1]);
    }
    line(&mut text, "all", all);
    text
}

fn line(text: &mut String, tag: &str, [before, now]: [Counts; 2]) {
    let asks = before.asks;
    writeln!(text, "{tag} asks={asks} before: {} now: {}", before.line(), now.line()).unwrap();
}
