//! The two profiles. Their builds are lent the same six stores, and every map has a seed of its own.

use crate::full::{self, Stores};
use crate::refusal::BuildRefusal;
use crate::slim;

#[derive(Clone, Copy, Debug, PartialEq, Eq)]
pub enum Profile {
    Full,
    Slim,
}

/// A map: its number, and its items with their values.
pub type Map = (usize, Vec<(u64, u16)>);

/// What a build left that took the same seed for all maps.
pub struct Built {
    pub seed: u64,
    pub stores: Stores,
}

/// How many seeds are tried, from 0 on.
const SEEDS: u64 = 256;

impl Profile {
    pub const BOTH: [Profile; 2] = [Profile::Full, Profile::Slim];

    /// The named lengths of stores 1 to 6.
    pub fn named(self, n: usize, bucket: usize) -> [usize; 6] {
        match self {
            Profile::Full => full::named(n, bucket),
            Profile::Slim => slim::named(n, bucket),
        }
    }

    /// Stores of just the named lengths, all 0.
    pub fn stores(self, n: usize, bucket: usize) -> Stores {
        Stores::filled(self.named(n, bucket), |_| 0)
    }

    /// The maps, in the order of their numbers. The slim profile has no map 2.
    pub fn maps(self, keys: &[u64], bucket: usize) -> Vec<Map> {
        match self {
            Profile::Full => (1..).zip(full::three_maps(keys, bucket)).collect(),
            Profile::Slim => {
                vec![(1, slim::offset_values(keys, bucket)), (3, slim::handle_values(keys, bucket))]
            }
        }
    }

    /// The sets of maps that can jam together; bit i − 1 of a set is map i.
    pub fn jammable(self) -> &'static [usize] {
        match self {
            Profile::Full => &[0, 1, 2, 3, 4, 5, 6, 7],
            Profile::Slim => &[0, 1, 4, 5],
        }
    }

    /// The keys that the neighbour index is over.
    pub fn neighbours(self, keys: &[u64], bucket: usize) -> Vec<u64> {
        match self {
            Profile::Full => keys.to_vec(),
            Profile::Slim => slim::delimiters(keys, bucket),
        }
    }

    /// Builds with the seeds of maps 1, 2 and 3.
    pub fn build(
        self,
        keys: &[u64],
        bucket: usize,
        seeds: [u64; 3],
        stores: &mut Stores,
    ) -> Result<(), BuildRefusal> {
        match self {
            Profile::Full => full::build(keys, bucket, seeds, stores),
            Profile::Slim => slim::build(keys, bucket, [seeds[0], seeds[2]], stores),
        }
    }

    /// The build under one seed for all maps.
    pub fn built_with(self, keys: &[u64], bucket: usize, seed: u64) -> Result<Built, BuildRefusal> {
        // Without buckets there are no named lengths, and the build refuses whatever it is lent.
        let mut stores =
            if bucket == 0 { Stores::default() } else { self.stores(keys.len(), bucket) };
        self.build(keys, bucket, [seed; 3], &mut stores)?;
        Ok(Built { seed, stores })
    }

    /// The build under the first seed that it takes, or what it says of the last one.
    pub fn built(self, keys: &[u64], bucket: usize) -> Result<Built, BuildRefusal> {
        let mut last = self.built_with(keys, bucket, 0);
        for seed in 1..SEEDS {
            // Only a jam depends on the seed.
            if !last.as_ref().is_err_and(BuildRefusal::is_jam) {
                break;
            }
            last = self.built_with(keys, bucket, seed);
        }
        last
    }
}
