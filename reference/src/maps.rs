//! Static maps: three cells for each item, whose xor is the item's value.

use crate::mix::item_hash;

/// M, the segment size for t items.
pub fn segment(t: usize) -> usize {
    42 * t / 100 + 3
}

/// C(t), the number of cells for t items.
pub fn cell_count(t: usize) -> usize {
    3 * segment(t)
}

/// The three cells that an item touches in a map of t items.
pub fn touched(item: u64, seed: u64, t: usize) -> [usize; 3] {
    let h = item_hash(item, seed);
    let m = segment(t);
    let place = |hash: u64| (hash % m as u64) as usize;
    [place(h), m + place(h >> 21), 2 * m + place(h >> 42)]
}

/// The end of removing items that alone touch a cell, until there are none.
pub struct Peeling {
    /// The removed items in order, each with a cell that no other item still there touched.
    pub removed: Vec<(usize, usize)>,
    /// The items that stay. They are the largest jam, as an item of a jam is never removed.
    pub jam: Vec<usize>,
}

pub fn peel(triples: &[[usize; 3]], cells: usize) -> Peeling {
    let mut touches = vec![0; cells];
    for triple in triples {
        for &cell in triple {
            touches[cell] += 1;
        }
    }
    let mut removed = Vec::new();
    let mut jam: Vec<usize> = (0..triples.len()).collect();
    loop {
        let before = jam.len();
        jam.retain(|&item| {
            let alone = triples[item].iter().find(|&&cell| touches[cell] == 1);
            let Some(&cell) = alone else { return true };
            removed.push((item, cell));
            for &cell in &triples[item] {
                touches[cell] -= 1;
            }
            false
        });
        if jam.len() == before {
            return Peeling { removed, jam };
        }
    }
}

/// Whether a set of the items is a jam, as the scope document says: it is not empty, and every cell
/// touched is touched by at least two of the set.
pub fn is_jam(set: &[usize], triples: &[[usize; 3]]) -> bool {
    let touching = |cell: &usize| set.iter().filter(|&&item| triples[item].contains(cell)).count();
    let mut touched = set.iter().flat_map(|&item| &triples[item]);
    !set.is_empty() && touched.all(|cell| touching(cell) >= 2)
}

/// All jams, by going through all the sets of the items.
pub fn all_jams(triples: &[[usize; 3]]) -> Vec<Vec<usize>> {
    let members = |set: u32| (0..triples.len()).filter(|item| set >> item & 1 == 1).collect();
    (0..1 << triples.len()).map(members).filter(|set: &Vec<usize>| is_jam(set, triples)).collect()
}

/// The jam with the most items of all the sets, and no items where there is no jam.
pub fn largest_by_subsets(triples: &[[usize; 3]]) -> Vec<usize> {
    all_jams(triples).into_iter().max_by_key(Vec::len).unwrap_or_default()
}

/// How many items have so few sets that all of them can be gone through.
const FEW: usize = 10;

/// The largest jam, and no items where there is none.
pub fn largest_jam(triples: &[[usize; 3]], cells: usize) -> Vec<usize> {
    if triples.len() <= FEW {
        largest_by_subsets(triples)
    } else {
        peel(triples, cells).jam
    }
}

/// The items of a map from items to values.
pub fn items_of(wanted: &[(u64, u16)]) -> Vec<u64> {
    wanted.iter().map(|&(item, _)| item).collect()
}

/// The triples of a map's items under a seed.
pub fn triples(items: &[u64], seed: u64) -> Vec<[usize; 3]> {
    items.iter().map(|&item| touched(item, seed, items.len())).collect()
}

/// The cells of a map from items to values, or the size of the largest jam.
pub fn fill(wanted: &[(u64, u16)], seed: u64) -> Result<Vec<u16>, usize> {
    let items = items_of(wanted);
    let triples = triples(&items, seed);
    let mut cells = vec![0; cell_count(items.len())];
    let jam = largest_jam(&triples, cells.len());
    if !jam.is_empty() {
        return Err(jam.len());
    }
    // No item removed later touches this one's free cell, so it is still 0 and free to be set.
    for &(item, free) in peel(&triples, cells.len()).removed.iter().rev() {
        let [a, b, c] = triples[item];
        cells[free] = wanted[item].1 ^ cells[a] ^ cells[b] ^ cells[c];
    }
    Ok(cells)
}

/// The value that a map of t items gives to any item.
pub fn lookup(item: u64, seed: u64, t: usize, cells: &[u16]) -> u16 {
    let [a, b, c] = touched(item, seed, t);
    cells[a] ^ cells[b] ^ cells[c]
}
