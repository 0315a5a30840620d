//! The neighbour index: how many table keys are smaller than any key.

use crate::bits::{agree, bit, prefix_item, shared_bits, two_fattest};
use crate::maps;
use crate::refusal::{judge_store, Refusal, SPOILED_BOUNDS};
use crate::table::judge_count;
use std::ops::Range;

/// How many leading bits rows m − 1 and m share.
pub fn len(keys: &[u64], m: usize) -> u32 {
    shared_bits(keys[m - 1], keys[m])
}

/// The rows left(m) up to, not including, right(m): all rows with the first len(m) bits of key m.
pub fn rows(keys: &[u64], m: usize) -> Range<usize> {
    let length = len(keys, m);
    let inside = |key: &u64| agree(*key, keys[m], length);
    let left = keys.iter().position(inside).unwrap();
    let right = keys.iter().rposition(inside).unwrap() + 1;
    left..right
}

/// The split with the smallest len, for two keys or more.
pub fn root(keys: &[u64]) -> usize {
    (1..keys.len()).min_by_key(|&m| len(keys, m)).unwrap()
}

/// q, the length of the parent of a split other than the root, from the split's rows.
pub fn parent_length(keys: &[u64], rows: &Range<usize>) -> u32 {
    let mut lengths = Vec::new();
    if rows.start > 0 {
        lengths.push(len(keys, rows.start));
    }
    if rows.end < keys.len() {
        lengths.push(len(keys, rows.end));
    }
    lengths.into_iter().max().unwrap()
}

/// f, the length of the handle of split m, which is not the root and has these rows.
pub fn handle_length(keys: &[u64], m: usize, rows: &Range<usize>) -> u32 {
    two_fattest(parent_length(keys, rows) + 1, len(keys, m))
}

/// What the stores are to hold: the items of map 3 with their values, `left`, `right` and the lengths.
pub struct Wanted {
    pub handles: Vec<(u64, u16)>,
    pub left: Vec<u16>,
    pub right: Vec<u16>,
    pub lengths: Vec<u8>,
}

pub fn wanted(keys: &[u64]) -> Wanted {
    let n = keys.len();
    let mut wanted =
        Wanted { handles: Vec::new(), left: vec![0; n], right: vec![0; n], lengths: vec![0; n] };
    if n < 2 {
        return wanted;
    }
    let root = root(keys);
    wanted.left[0] = root as u16;
    for m in 1..n {
        let rows = rows(keys, m);
        wanted.left[m] = rows.start as u16;
        wanted.right[m] = rows.end as u16;
        wanted.lengths[m] = len(keys, m) as u8;
        if m != root {
            let f = handle_length(keys, m, &rows);
            wanted.handles.push((prefix_item(keys[m], f), m as u16));
        }
    }
    wanted
}

/// t, the number of handles.
pub fn handle_count(n: usize) -> usize {
    n.saturating_sub(2)
}

/// The named length of the handle cells.
pub fn handles_named(n: usize) -> usize {
    maps::cell_count(handle_count(n))
}

#[derive(Clone, Debug, PartialEq, Eq)]
pub struct Answer {
    pub before: usize,
    /// The lengths that were probed, in order; the probe count is their number.
    pub probed: Vec<u32>,
    pub stands: bool,
}

fn answer(keys: &[u64], x: u64, before: usize, probed: Vec<u32>) -> Answer {
    let stands = before < keys.len() && keys[before] == x;
    Answer { before, probed, stands }
}

/// The walk. It takes every len from the store, as it stands there.
pub fn ask(
    keys: &[u64],
    seed: u64,
    handles: &[u16],
    left: &[u16],
    right: &[u16],
    lengths: &[u8],
    x: u64,
) -> Result<Answer, Refusal> {
    judge_count(keys)?;
    let n = keys.len();
    judge_store(2, handles.len(), handles_named(n))?;
    judge_store(3, left.len(), n)?;
    judge_store(4, right.len(), n)?;
    judge_store(6, lengths.len(), n)?;

    if n == 0 {
        return Ok(answer(keys, x, 0, Vec::new()));
    }
    if n == 1 {
        let before = if x <= keys[0] { 0 } else { 1 };
        return Ok(answer(keys, x, before, Vec::new()));
    }

    let stored = |m: usize| u32::from(lengths[m]);
    let root = usize::from(left[0]);
    if root < 1 || root >= n || stored(root) > 63 {
        return Err(SPOILED_BOUNDS);
    }
    if !agree(x, keys[root], stored(root)) {
        let before = if x <= keys[root] { 0 } else { n };
        return Ok(answer(keys, x, before, Vec::new()));
    }

    let mut lower = stored(root);
    let mut upper = 64;
    let mut node = root;
    let mut probed = Vec::new();
    while lower + 1 < upper {
        let f = two_fattest(lower + 1, upper - 1);
        probed.push(f);
        let item = prefix_item(x, f);
        let m = usize::from(maps::lookup(item, seed, handle_count(n), handles));
        let accepted = 1 <= m && m < n && {
            let length = stored(m);
            f <= length && length < upper && agree(x, keys[m], length)
        };
        if accepted {
            node = m;
            lower = stored(m);
        } else {
            upper = f;
        }
    }

    let (a, m, b) = (usize::from(left[node]), node, usize::from(right[node]));
    if !(a < m && m < b && b <= n) {
        return Err(SPOILED_BOUNDS);
    }
    // The exit bit alone does not decide: x may lie on either side of the node's keys.
    let before = if !bit(x, lower) {
        if x <= keys[a] {
            a
        } else {
            m
        }
    } else {
        if x <= keys[m] {
            m
        } else {
            b
        }
    };
    Ok(answer(keys, x, before, probed))
}
