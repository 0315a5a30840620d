//! The program `rowcheck`: text in, text out.

use crate::profile::{Built, Profile};
use crate::refusal::{BuildRefusal, Refusal, BAD_TEXT};
use std::fmt::Write;

pub struct Input {
    pub bucket: usize,
    pub keys: Vec<u64>,
    pub asks: Vec<u64>,
}

/// A decimal number without leading zeros, at most `largest`.
fn decimal(text: &[u8], largest: usize) -> Option<usize> {
    if text.is_empty() || (text[0] == b'0' && text.len() > 1) {
        return None;
    }
    let mut value = 0;
    for &byte in text {
        if !byte.is_ascii_digit() {
            return None;
        }
        value = 10 * value + usize::from(byte - b'0');
        // Stopping here keeps a very long number from wrapping.
        if value > largest {
            return None;
        }
    }
    Some(value)
}

/// Exactly 16 lower-case hexadecimal digits.
fn hex(text: &[u8]) -> Option<u64> {
    if text.len() != 16 {
        return None;
    }
    let mut value = 0;
    for &byte in text {
        let digit = match byte {
            b'0'..=b'9' => byte - b'0',
            b'a'..=b'f' => byte - b'a' + 10,
            _ => return None,
        };
        value = 16 * value + u64::from(digit);
    }
    Some(value)
}

fn parse_lines<'a>(mut lines: impl Iterator<Item = &'a [u8]>) -> Option<Input> {
    let mut after = |label: &str| lines.next()?.strip_prefix(label.as_bytes());
    let bucket = decimal(after("bucket=")?, 65_535)?;
    let key_count = decimal(after("keys=")?, 2_048)?;
    let mut keys = Vec::new();
    for _ in 0..key_count {
        keys.push(hex(after("key=")?)?);
    }
    let ask_count = decimal(after("asks=")?, 512)?;
    let mut asks = Vec::new();
    for _ in 0..ask_count {
        asks.push(hex(after("ask=")?)?);
    }
    match lines.next() {
        None => Some(Input { bucket, keys, asks }),
        Some(_) => None,
    }
}

pub fn parse(text: &[u8]) -> Result<Input, Refusal> {
    // Every line has a line feed of its own, so without the last one the text splits into lines.
    let body = text.strip_suffix(b"\n").ok_or(BAD_TEXT)?;
    parse_lines(body.split(|&byte| byte == b'\n')).ok_or(BAD_TEXT)
}

/// Both indexes under one seed for all maps.
pub fn build_with(keys: &[u64], bucket: usize, seed: u64) -> Result<Built, BuildRefusal> {
    Profile::Full.built_with(keys, bucket, seed)
}

/// Both indexes under the first seed that the build takes, or what it says of the last seed.
pub fn build(keys: &[u64], bucket: usize) -> Result<Built, BuildRefusal> {
    Profile::Full.built(keys, bucket)
}

fn answers(input: &Input) -> Result<String, BuildRefusal> {
    let (keys, bucket) = (&input.keys, input.bucket);
    let Built { seed, stores } = build(keys, bucket)?;
    // No row is withdrawn: the input has no word for it.
    let row_bytes = vec![0; keys.len()];
    let mut text = format!("keys={}\n", keys.len());
    for &x in &input.asks {
        let outcome = stores.call(keys, &row_bytes, bucket, [seed; 2], x)?;
        let near = stores.neighbour(keys, seed, x)?;
        let row = outcome.row().map_or("none".to_string(), |row| row.to_string());
        let (before, probes) = (near.before, near.probed.len());
        write!(text, "ask={x:016x}\ncall={row}\nbefore={before}\nprobes={probes}\n").unwrap();
    }
    Ok(text)
}

pub fn run(text: &[u8]) -> String {
    let said = parse(text).map_err(BuildRefusal::from).and_then(|input| answers(&input));
    match said {
        Ok(text) => text,
        Err(refused) if refused.is_jam() => format!("refused=5\njammed={}\n", refused.jammed),
        Err(refused) => format!("refused={}\n", refused.refusal.number),
    }
}
