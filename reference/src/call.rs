//! The call index: a key of the table gets its row, planned or withdrawn, and any other key is absent.

use crate::bits::{prefix_item, shared_bits};
use crate::maps;
use crate::refusal::{judge_store, Refusal, BAD_BUCKET};
use crate::table::{judge_count, MOST_KEYS};
use std::ops::Range;

fn is_bucket_size(bucket: usize) -> bool {
    (2..=256).contains(&bucket)
}

/// k, the number of buckets.
pub fn bucket_count(n: usize, bucket: usize) -> usize {
    n.div_ceil(bucket)
}

pub fn bucket_rows(n: usize, bucket: usize, i: usize) -> Range<usize> {
    i * bucket..n.min((i + 1) * bucket)
}

/// The view of bucket i as a part of the table.
pub fn view(keys: &[u64], bucket: usize, i: usize) -> &[u64] {
    let n = keys.len();
    if n > MOST_KEYS || !is_bucket_size(bucket) || i >= bucket_count(n, bucket) {
        return &[];
    }
    &keys[bucket_rows(n, bucket, i)]
}

/// How many leading bits the keys of a bucket share.
/// One key alone counts 63, so that its prefix has room for the mark.
pub fn bucket_length(keys: &[u64]) -> u32 {
    if keys.len() == 1 {
        return 63;
    }
    keys.iter().map(|&key| shared_bits(keys[0], key)).min().unwrap()
}

/// The items and values of map 1.
pub fn key_values(keys: &[u64], bucket: usize) -> Vec<(u64, u16)> {
    let mut wanted = Vec::new();
    for i in 0..bucket_count(keys.len(), bucket) {
        let part = &keys[bucket_rows(keys.len(), bucket, i)];
        let length = bucket_length(part) as u16;
        for (offset, &key) in part.iter().enumerate() {
            wanted.push((key, 256 * length + offset as u16));
        }
    }
    wanted
}

/// The items and values of map 2.
pub fn bucket_values(keys: &[u64], bucket: usize) -> Vec<(u64, u16)> {
    let mut wanted = Vec::new();
    for i in 0..bucket_count(keys.len(), bucket) {
        let part = &keys[bucket_rows(keys.len(), bucket, i)];
        wanted.push((prefix_item(part[0], bucket_length(part)), i as u16));
    }
    wanted
}

/// The named length of the call cells.
pub fn cells_named(n: usize, bucket: usize) -> usize {
    maps::cell_count(n) + maps::cell_count(bucket_count(n, bucket))
}

/// Refusals 1 and 2, of the number of keys and of the bucket size.
pub fn judge_limits(keys: &[u64], bucket: usize) -> Result<(), Refusal> {
    judge_count(keys)?;
    if is_bucket_size(bucket) {
        Ok(())
    } else {
        Err(BAD_BUCKET)
    }
}

/// What an ask says of a key. A withdrawn key keeps its row.
#[derive(Clone, Copy, Debug, PartialEq, Eq)]
pub enum Outcome {
    /// The key stands in this row, and the row's byte is 0.
    Planned(usize),
    /// The key stands in this row, and the row's byte is not 0.
    Withdrawn(usize),
    Absent,
}

impl Outcome {
    /// The row, planned or withdrawn.
    pub fn row(self) -> Option<usize> {
        match self {
            Outcome::Planned(row) | Outcome::Withdrawn(row) => Some(row),
            Outcome::Absent => None,
        }
    }
}

/// What is known of x if it stands in this row or nowhere: the table's key is compared, then the
/// row's byte decides.
pub fn compared(keys: &[u64], row_bytes: &[u8], row: usize, x: u64) -> Outcome {
    if row >= keys.len() || keys[row] != x {
        return Outcome::Absent;
    }
    if row_bytes[row] == 0 {
        Outcome::Planned(row)
    } else {
        Outcome::Withdrawn(row)
    }
}

/// What is known of x, with a byte for each row beside the table.
pub fn ask(
    keys: &[u64],
    row_bytes: &[u8],
    bucket: usize,
    seeds: [u64; 2],
    cells: &[u16],
    x: u64,
) -> Result<Outcome, Refusal> {
    judge_limits(keys, bucket)?;
    let n = keys.len();
    judge_store(1, cells.len(), cells_named(n, bucket))?;
    judge_store(7, row_bytes.len(), n)?;

    let value = usize::from(maps::lookup(x, seeds[0], n, cells));
    let (length, offset) = (value / 256, value % 256);
    if length > 63 {
        return Ok(Outcome::Absent);
    }
    let second = &cells[maps::cell_count(n)..];
    let item = prefix_item(x, length as u32);
    let i = usize::from(maps::lookup(item, seeds[1], bucket_count(n, bucket), second));
    Ok(compared(keys, row_bytes, i * bucket + offset, x))
}
