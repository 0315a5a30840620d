//! Bits of keys. Bit 0 is the highest one.

pub fn bit(x: u64, i: u32) -> bool {
    (x >> (63 - i)) & 1 == 1
}

/// How many leading bits two keys share: 64 for equal keys.
pub fn shared_bits(a: u64, b: u64) -> u32 {
    let mut count = 0;
    while count < 64 && bit(a, count) == bit(b, count) {
        count += 1;
    }
    count
}

/// Whether two keys agree in their first `length` bits.
pub fn agree(a: u64, b: u64, length: u32) -> bool {
    // No key may be shifted by 64, so length 0 stands apart.
    length == 0 || (a >> (64 - length)) == (b >> (64 - length))
}

/// The item of a prefix: its `length` bits, 63 at most, then a 1, then zeros.
pub fn prefix_item(x: u64, length: u32) -> u64 {
    let after_mark = 63 - length;
    ((x >> after_mark) | 1) << after_mark
}

/// The number from `low`, at least 1, to `high` that is divisible by the highest power of two.
pub fn two_fattest(low: u32, high: u32) -> u32 {
    for power in (0..32).rev() {
        for number in low..=high {
            if number % (1 << power) == 0 {
                return number;
            }
        }
    }
    unreachable!("every number is divisible by 1")
}
