//! The indexes, the vectors and `rowcheck` a second time, by the most obvious algorithms.
//! It is written from the documents alone, as a second witness beside the proved crates.

mod bits;
mod call;
mod cases;
mod chance;
mod full;
mod gen;
mod keys;
mod maps;
mod mix;
mod neighbour;
mod plant;
mod profile;
mod reads;
mod refusal;
mod rowcheck;
mod samples;
mod selfcheck;
mod slim;
mod space;
mod table;
mod vectors;

use std::io::{Read, Write};
use std::process::ExitCode;

const USAGE: &str =
    "usage: reference VECTORS | rowcheck | selfcheck | cases DIR | chance | reads | space
VECTORS is a name of docs/VECTORS.md; rowcheck reads standard input;
chance tells how often seeds jam by chance, and how badly;
reads tells how many rows of the table a walk reads, without and with the stored lengths;
space tells how many bits a key the stores of both profiles take";

fn print(text: &str) {
    std::io::stdout().write_all(text.as_bytes()).expect("standard output can be written");
}

fn usage() -> ExitCode {
    eprintln!("{USAGE}");
    ExitCode::from(2)
}

fn main() -> ExitCode {
    let arguments: Vec<String> = std::env::args().skip(1).collect();
    let words: Vec<&str> = arguments.iter().map(String::as_str).collect();
    match words[..] {
        ["rowcheck"] => {
            let mut input = Vec::new();
            std::io::stdin().read_to_end(&mut input).expect("standard input can be read");
            print(&rowcheck::run(&input));
        }
        ["selfcheck"] => selfcheck::run(),
        ["chance"] => print(&chance::text()),
        ["reads"] => print(&reads::text()),
        ["space"] => print(&space::text()),
        ["cases", directory] => cases::write(directory.as_ref()).expect("the cases can be written"),
        [name] => match vectors::text(name) {
            Some(text) => print(&text),
            None => return usage(),
        },
        _ => return usage(),
    }
    ExitCode::SUCCESS
}
