//! Call keys. From the top: day 16 bits, stop 16, planned second 17, block 15. A service day is thirty hours long.

use crate::refusal::{Refusal, FIELD_TOO_LARGE};

#[derive(Clone, Copy, Debug, PartialEq, Eq)]
pub struct Fields {
    pub day: u32,
    pub stop: u32,
    pub second: u32,
    pub block: u32,
}

const LARGEST: Fields = Fields { day: 65_535, stop: 65_535, second: 107_999, block: 32_767 };

pub fn pack(fields: Fields) -> Result<u64, Refusal> {
    if fields.day > LARGEST.day
        || fields.stop > LARGEST.stop
        || fields.second > LARGEST.second
        || fields.block > LARGEST.block
    {
        return Err(FIELD_TOO_LARGE);
    }
    let key = u64::from(fields.day);
    let key = key * (1 << 16) + u64::from(fields.stop);
    let key = key * (1 << 17) + u64::from(fields.second);
    let key = key * (1 << 15) + u64::from(fields.block);
    Ok(key)
}

pub fn unpack(key: u64) -> Result<Fields, Refusal> {
    let fields = Fields {
        day: (key >> 48) as u32,
        stop: (key >> 32) as u32 % (1 << 16),
        second: (key >> 15) as u32 % (1 << 17),
        block: key as u32 % (1 << 15),
    };
    if fields.second > LARGEST.second {
        return Err(FIELD_TOO_LARGE);
    }
    Ok(fields)
}
