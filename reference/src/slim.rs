//! The slim profile, for the handhelds: one map from every key to its offset, and a neighbour index
//! over the last key of each bucket.

use crate::call::{self, bucket_count, judge_limits, Outcome};
use crate::full::{self, Stores};
use crate::refusal::{judge_store, BuildRefusal, Refusal};
use crate::{maps, neighbour};

/// The delimiters: the last key of each bucket.
pub fn delimiters(keys: &[u64], bucket: usize) -> Vec<u64> {
    keys.chunks(bucket).map(|rows| rows[rows.len() - 1]).collect()
}

/// The items and values of map 1: the whole value is the offset, the row minus the bucket's first row.
pub fn offset_values(keys: &[u64], bucket: usize) -> Vec<(u64, u16)> {
    keys.iter().enumerate().map(|(row, &key)| (key, (row % bucket) as u16)).collect()
}

/// The items and values of map 3: the handles of the delimiters.
pub fn handle_values(keys: &[u64], bucket: usize) -> Vec<(u64, u16)> {
    neighbour::wanted(&delimiters(keys, bucket)).handles
}

/// The named lengths of stores 1 to 6. Work goes by the keys, as map 1 does.
pub fn named(n: usize, bucket: usize) -> [usize; 6] {
    let (k, cells) = (bucket_count(n, bucket), maps::cell_count(n));
    [cells, neighbour::handles_named(k), k, k, 2 * cells + 2 * n, k]
}

/// Builds the profile, with the seeds of maps 1 and 3.
pub fn build(
    keys: &[u64],
    bucket: usize,
    seeds: [u64; 2],
    stores: &mut Stores,
) -> Result<(), BuildRefusal> {
    let named = full::judge(keys, bucket, stores, named)?;
    stores.clear(named);
    let offsets = full::fill(1, &offset_values(keys, bucket), seeds[0])?;
    let wanted = neighbour::wanted(&delimiters(keys, bucket));
    let handles = full::fill(3, &wanted.handles, seeds[1])?;
    stores.cells[..named[0]].copy_from_slice(&offsets);
    stores.put_neighbour(&handles, &wanted);
    Ok(())
}

#[derive(Clone, Debug, PartialEq, Eq)]
pub struct Answer {
    pub outcome: Outcome,
    /// How many delimiters are smaller, what the walk over them probed, and whether x is one.
    pub near: neighbour::Answer,
}

/// What is known of x, with a byte for each row beside the table. No work is lent to an ask.
pub fn ask(
    keys: &[u64],
    row_bytes: &[u8],
    bucket: usize,
    seeds: [u64; 2],
    stores: &Stores,
    x: u64,
) -> Result<Answer, Refusal> {
    judge_limits(keys, bucket)?;
    let n = keys.len();
    let [cells, handles, left, right, _, lengths] = named(n, bucket);
    judge_store(1, stores.cells.len(), cells)?;
    judge_store(2, stores.handles.len(), handles)?;
    judge_store(3, stores.left.len(), left)?;
    judge_store(4, stores.right.len(), right)?;
    judge_store(6, stores.lengths.len(), lengths)?;
    judge_store(7, row_bytes.len(), n)?;

    let delimiters = delimiters(keys, bucket);
    let near = stores.neighbour(&delimiters, seeds[1], x)?;
    if near.before == delimiters.len() {
        return Ok(Answer { outcome: Outcome::Absent, near });
    }
    let offset = usize::from(maps::lookup(x, seeds[0], n, &stores.cells));
    let outcome = call::compared(keys, row_bytes, near.before * bucket + offset, x);
    Ok(Answer { outcome, near })
}
