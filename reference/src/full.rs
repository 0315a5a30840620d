//! The full build: maps 1, 2 and 3 with `left`, `right` and the lengths, all in lent memory.

use crate::neighbour::Wanted;
use crate::refusal::{jam, judge_store, BuildRefusal, Refusal};
use crate::table::judge_rising;
use crate::{call, maps, neighbour};

/// The memory lent to a build: stores 1 to 6. The slim profile's offset cells are its store 1 too.
#[derive(Clone, Debug, Default, PartialEq, Eq)]
pub struct Stores {
    pub cells: Vec<u16>,
    pub handles: Vec<u16>,
    pub left: Vec<u16>,
    pub right: Vec<u16>,
    pub work: Vec<u16>,
    pub lengths: Vec<u8>,
}

/// The named lengths of stores 1 to 6.
pub fn named(n: usize, bucket: usize) -> [usize; 6] {
    let work = 2 * maps::cell_count(n) + 2 * n;
    [call::cells_named(n, bucket), neighbour::handles_named(n), n, n, work, n]
}

impl Stores {
    /// Stores of these sizes; in each, entry i holds `entry(i)`, of which a byte takes the low half.
    pub fn filled(sizes: [usize; 6], entry: impl Fn(usize) -> u16) -> Stores {
        let [cells, handles, left, right, work, lengths] =
            sizes.map(|size| (0..size).map(&entry).collect::<Vec<u16>>());
        let lengths = lengths.into_iter().map(|entry| entry as u8).collect();
        Stores { cells, handles, left, right, work, lengths }
    }

    /// What the stores hold, in the order of their numbers.
    pub fn all(&self) -> [Vec<u16>; 6] {
        let lengths = self.lengths.iter().map(|&entry| u16::from(entry)).collect();
        let Stores { cells, handles, left, right, work, .. } = self.clone();
        [cells, handles, left, right, work, lengths]
    }

    /// Sets so many entries of each store to 0.
    pub fn clear(&mut self, named: [usize; 6]) {
        let Stores { cells, handles, left, right, work, lengths } = self;
        for (store, length) in [cells, handles, left, right, work].into_iter().zip(named) {
            store[..length].fill(0);
        }
        lengths[..named[5]].fill(0);
    }

    /// Writes a neighbour index, whose handle cells are these.
    pub fn put_neighbour(&mut self, handles: &[u16], wanted: &Wanted) {
        let n = wanted.left.len();
        self.handles[..handles.len()].copy_from_slice(handles);
        self.left[..n].copy_from_slice(&wanted.left);
        self.right[..n].copy_from_slice(&wanted.right);
        self.lengths[..n].copy_from_slice(&wanted.lengths);
    }

    /// Asks the call index in these stores, with the row bytes beside them.
    pub fn call(
        &self,
        keys: &[u64],
        row_bytes: &[u8],
        bucket: usize,
        seeds: [u64; 2],
        x: u64,
    ) -> Result<call::Outcome, Refusal> {
        call::ask(keys, row_bytes, bucket, seeds, &self.cells, x)
    }

    /// Asks the neighbour index in these stores.
    pub fn neighbour(&self, keys: &[u64], seed: u64, x: u64) -> Result<neighbour::Answer, Refusal> {
        neighbour::ask(keys, seed, &self.handles, &self.left, &self.right, &self.lengths, x)
    }
}

/// The items and values of maps 1, 2 and 3.
pub fn three_maps(keys: &[u64], bucket: usize) -> [Vec<(u64, u16)>; 3] {
    [
        call::key_values(keys, bucket),
        call::bucket_values(keys, bucket),
        neighbour::wanted(keys).handles,
    ]
}

/// The size of the largest jam that a build tells of: 0 where it names no jammed map.
pub fn jammed<T>(said: &Result<T, BuildRefusal>) -> usize {
    said.as_ref().err().map_or(0, |refused| refused.jammed)
}

/// Refusals 1 to 4 of a build, the stores judged together; where none applies, their named lengths.
pub fn judge(
    keys: &[u64],
    bucket: usize,
    stores: &Stores,
    named: fn(usize, usize) -> [usize; 6],
) -> Result<[usize; 6], Refusal> {
    call::judge_limits(keys, bucket)?;
    judge_rising(keys)?;
    let named = named(keys.len(), bucket);
    for (i, store) in stores.all().into_iter().enumerate() {
        judge_store(i + 1, store.len(), named[i])?;
    }
    Ok(named)
}

/// The cells of a map, or refusal 5 with the size of its largest jam.
pub fn fill(map: usize, wanted: &[(u64, u16)], seed: u64) -> Result<Vec<u16>, BuildRefusal> {
    maps::fill(wanted, seed).map_err(|jammed| BuildRefusal { refusal: jam(map), jammed })
}

/// Builds both indexes, each map under its own seed.
pub fn build(
    keys: &[u64],
    bucket: usize,
    seeds: [u64; 3],
    stores: &mut Stores,
) -> Result<(), BuildRefusal> {
    let named = judge(keys, bucket, stores, named)?;
    // A jam leaves all stores 0, and work is 0 after acceptance too; nothing here needs work.
    stores.clear(named);
    let first = fill(1, &call::key_values(keys, bucket), seeds[0])?;
    let second = fill(2, &call::bucket_values(keys, bucket), seeds[1])?;
    let wanted = neighbour::wanted(keys);
    let third = fill(3, &wanted.handles, seeds[2])?;
    stores.cells[..named[0]].copy_from_slice(&[first, second].concat());
    stores.put_neighbour(&third, &wanted);
    Ok(())
}
