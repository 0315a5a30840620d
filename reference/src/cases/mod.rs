//! The committed inputs of `rowcheck` and their answers.

mod bad;
mod jam;
mod refused;
mod valid;

use crate::rowcheck;
use std::collections::BTreeSet;
use std::fs;
use std::path::Path;

pub struct Case {
    pub name: String,
    pub input: Vec<u8>,
    /// The refusal that the input is made for, none for a valid input.
    pub refused: Option<u32>,
    /// The size that refusal 5 is to tell of, 0 with the others.
    pub jammed: usize,
}

pub fn case(name: impl Into<String>, input: impl Into<Vec<u8>>, refused: Option<u32>) -> Case {
    Case { name: name.into(), input: input.into(), refused, jammed: 0 }
}

/// An input under which all seeds jam, with the size of the jam that is told of.
pub fn jam_case(name: impl Into<String>, input: impl Into<Vec<u8>>, jammed: usize) -> Case {
    Case { jammed, ..case(name, input, Some(5)) }
}

/// The text of an input in the right form. The bucket size is a text, as it may be a bad one.
pub fn input(bucket: &str, keys: &[u64], asks: &[u64]) -> String {
    let mut lines = vec![format!("bucket={bucket}"), format!("keys={}", keys.len())];
    lines.extend(keys.iter().map(|key| format!("key={key:016x}")));
    lines.push(format!("asks={}", asks.len()));
    lines.extend(asks.iter().map(|ask| format!("ask={ask:016x}")));
    lines.join("\n") + "\n"
}

/// Writes every case as NAME.in and NAME.out.
pub fn write(directory: &Path) -> std::io::Result<()> {
    fs::create_dir_all(directory)?;
    let mut cases = valid::cases();
    cases.extend(jam::cases());
    cases.extend(refused::cases());
    cases.extend(bad::cases());

    let mut names = BTreeSet::new();
    let (mut valid, mut later_seed, mut bytes) = (0, 0, 0);
    for case in &cases {
        assert!(names.insert(&case.name), "two cases are called {}", case.name);
        let output = rowcheck::run(&case.input);
        match case.refused {
            Some(5) => {
                let lines = format!("refused=5\njammed={}\n", case.jammed);
                assert_eq!(output, lines, "{}", case.name);
            }
            Some(number) => assert_eq!(output, format!("refused={number}\n"), "{}", case.name),
            None => {
                assert!(output.starts_with("keys="), "{} is refused", case.name);
                let parsed = rowcheck::parse(&case.input).unwrap();
                let seed = rowcheck::build(&parsed.keys, parsed.bucket).unwrap().seed;
                valid += 1;
                later_seed += usize::from(seed > 0);
            }
        }
        bytes += case.input.len() + output.len();
        fs::write(directory.join(format!("{}.in", case.name)), &case.input)?;
        fs::write(directory.join(format!("{}.out", case.name)), output)?;
    }
    println!("{} cases, {bytes} bytes", cases.len());
    println!("{valid} valid cases, {later_seed} of them with another seed than 0");
    Ok(())
}
