//! A refusal: its number, and the row, store or map it names (0 where it names nothing).

#[derive(Clone, Copy, Debug, PartialEq, Eq)]
pub struct Refusal {
    pub number: u32,
    pub named: usize,
}

pub const TOO_MANY_KEYS: Refusal = Refusal { number: 1, named: 0 };
pub const BAD_BUCKET: Refusal = Refusal { number: 2, named: 0 };
pub const SPOILED_BOUNDS: Refusal = Refusal { number: 6, named: 0 };
pub const FIELD_TOO_LARGE: Refusal = Refusal { number: 7, named: 0 };
pub const BAD_TEXT: Refusal = Refusal { number: 8, named: 0 };

pub fn not_rising(row: usize) -> Refusal {
    Refusal { number: 3, named: row }
}

pub fn short_store(store: usize) -> Refusal {
    Refusal { number: 4, named: store }
}

pub fn jam(map: usize) -> Refusal {
    Refusal { number: 5, named: map }
}

/// A refusal as a build gives it: with a jam goes the size of the largest one in the named map.
#[derive(Clone, Copy, Debug, PartialEq, Eq)]
pub struct BuildRefusal {
    pub refusal: Refusal,
    /// 0 with every refusal but 5.
    pub jammed: usize,
}

impl BuildRefusal {
    pub fn is_jam(&self) -> bool {
        self.refusal.number == 5
    }
}

impl From<Refusal> for BuildRefusal {
    fn from(refusal: Refusal) -> BuildRefusal {
        BuildRefusal { refusal, jammed: 0 }
    }
}

/// Refuses a store of fewer entries than its named length.
pub fn judge_store(store: usize, entries: usize, named_length: usize) -> Result<(), Refusal> {
    if entries < named_length {
        Err(short_store(store))
    } else {
        Ok(())
    }
}
