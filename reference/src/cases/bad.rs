//! Inputs with bad text. Each has one fault only, unless its name says more.

use super::valid::shape;
use super::{case, input, Case};
use crate::gen::Gen;

const LINES: [&str; 8] = [
    "bucket=2",
    "keys=3",
    "key=000000000000000a",
    "key=000000000000000b",
    "key=000000000000002c",
    "asks=2",
    "ask=000000000000000b",
    "ask=00000000000000f0",
];

/// The five kinds of lines, each with a place where one stands.
const KINDS: [(&str, usize); 5] = [("bucket", 0), ("keys", 1), ("key", 2), ("asks", 5), ("ask", 7)];

fn lines() -> Vec<Vec<u8>> {
    LINES.iter().map(|line| line.as_bytes().to_vec()).collect()
}

/// The lines with a line feed after each.
fn joined(lines: &[Vec<u8>]) -> Vec<u8> {
    lines.iter().flat_map(|line| [line, &b"\n"[..]].concat()).collect()
}

/// The good text with one line changed.
fn with_line(place: usize, line: impl Into<Vec<u8>>) -> Vec<u8> {
    let mut lines = lines();
    lines[place] = line.into();
    joined(&lines)
}

fn label_and_value(place: usize) -> (&'static str, &'static str) {
    LINES[place].split_once('=').unwrap()
}

fn bad_hex(cases: &mut Vec<Case>) {
    for (place_name, place) in [("first-key", 2), ("last-ask", 7)] {
        let (label, value) = label_and_value(place);
        let (front, last) = value.split_at(15);
        let mut add = |name: &str, value: &[u8]| {
            let line = [label.as_bytes(), b"=", value].concat();
            cases.push(case(format!("bad-{place_name}-{name}"), with_line(place, line), Some(8)));
        };
        let mut text = |name: &str, value: String| add(name, value.as_bytes());
        text("upper-case-hex", value.to_uppercase());
        text("15-digits", value[1..].to_string());
        text("17-digits", format!("0{value}"));
        text("plus-sign", format!("+{}", &value[1..]));
        text("leading-space", format!(" {value}"));
        text("space-for-digit", format!(" {}", &value[1..]));
        text("trailing-space", format!("{value} "));
        text("trailing-tab", format!("{value}\t"));
        text("carriage-return", format!("{value}\r"));
        text("non-digit-g", format!("{front}g"));
        text("empty", String::new());
        text("double-equals", format!("={value}"));
        // The bytes next to the digits and letters.
        for (name, byte) in [("slash", '/'), ("colon", ':'), ("at-sign", '@'), ("backquote", '`')] {
            text(name, format!("{front}{byte}"));
        }
        text("minus-sign", format!("-{}", &value[1..]));
        text("trailing-nul", format!("{value}\0"));
        text("nul-for-digit", format!("{front}\0"));
        add("byte-over-127", &[front.as_bytes(), &[last.as_bytes()[0] | 128]].concat());
    }
}

fn bad_decimal(cases: &mut Vec<Case>) {
    for place in [0, 1, 5] {
        let (label, value) = label_and_value(place);
        let mut add = |name: &str, value: &[u8]| {
            let line = [label.as_bytes(), b"=", value].concat();
            cases.push(case(format!("bad-{label}-{name}"), with_line(place, line), Some(8)));
        };
        add("byte-over-127", &[value.as_bytes()[0] | 128]);
        let mut text = |name: &str, value: String| add(name, value.as_bytes());
        text("leading-zero", format!("0{value}"));
        text("empty", String::new());
        text("plus-sign", format!("+{value}"));
        text("minus-sign", format!("-{value}"));
        text("leading-space", format!(" {value}"));
        text("trailing-space", format!("{value} "));
        text("trailing-tab", format!("{value}\t"));
        text("carriage-return", format!("{value}\r"));
        text("non-digit", format!("{value}x"));
        text("slash", "/".to_string());
        text("colon", ":".to_string());
        text("trailing-nul", format!("{value}\0"));
        text("double-equals", format!("={value}"));
    }
}

fn bad_counts(cases: &mut Vec<Case>) {
    let mut gen = Gen::new(400);
    let many = shape("sequential", 2049, &mut gen);
    cases.push(case("bad-2049-keys", input("2", &many, &[]), Some(8)));
    cases.push(case("bad-513-asks", input("2", &[5], &many[..513]), Some(8)));
    // A count that wraps to the number of lines there are is still too large.
    let small = input("2", &[10, 11], &[10, 12]);
    let none = input("2", &[], &[]);
    for count in ["65538", "4294967298", "18446744073709551618"] {
        for label in ["keys", "asks"] {
            let text = small.replace(&format!("{label}=2"), &format!("{label}={count}"));
            cases.push(case(format!("bad-{label}-{count}"), text, Some(8)));
        }
    }
    for (label, count) in [
        ("keys", "65536"),
        ("asks", "65536"),
        ("keys", "18446744073709551616"),
        ("asks", "18446744073709551616"),
        ("keys", "00"),
        ("asks", "00"),
        ("keys", "2049"),
        ("asks", "513"),
    ] {
        let text = none.replace(&format!("{label}=0"), &format!("{label}={count}"));
        cases.push(case(format!("bad-{label}-{count}-no-lines"), text, Some(8)));
    }
    for (name, place, line) in [
        ("too-few-keys", 1, "keys=4"),
        ("too-many-keys", 1, "keys=2"),
        ("keys-0-but-key-lines", 1, "keys=0"),
        ("too-few-asks", 5, "asks=3"),
        ("too-many-asks", 5, "asks=1"),
        ("asks-0-but-ask-lines", 5, "asks=0"),
    ] {
        cases.push(case(format!("bad-{name}"), with_line(place, line), Some(8)));
    }
}

fn bad_labels(cases: &mut Vec<Case>) {
    for (kind, place) in KINDS {
        let (label, value) = label_and_value(place);
        let other = match label {
            "bucket" => "keys",
            "keys" => "asks",
            "asks" => "keys",
            "key" => "ask",
            _ => "key",
        };
        for (name, line) in [
            ("wrong", format!("{other}={value}")),
            ("upper-case", format!("{}={value}", label.to_uppercase())),
            ("too-long", format!("{label}s={value}")),
            ("missing", format!("={value}")),
            ("without-equals", format!("{label}{value}")),
            ("space-before-equals", format!("{label} ={value}")),
        ] {
            cases.push(case(format!("bad-label-{kind}-{name}"), with_line(place, line), Some(8)));
        }
    }
}

fn bad_order(cases: &mut Vec<Case>) {
    for (kind, place) in KINDS {
        let mut missing = lines();
        missing.remove(place);
        cases.push(case(format!("bad-{kind}-line-missing"), joined(&missing), Some(8)));
        let mut double = lines();
        double.insert(place, double[place].clone());
        cases.push(case(format!("bad-{kind}-line-twice"), joined(&double), Some(8)));
        let mut blank = lines();
        blank.insert(place, Vec::new());
        cases.push(case(format!("bad-blank-line-before-{kind}"), joined(&blank), Some(8)));
    }
    for (name, order) in [
        ("keys-before-bucket", [1, 0, 2, 3, 4, 5, 6, 7]),
        ("key-before-keys", [0, 2, 1, 3, 4, 5, 6, 7]),
        ("asks-before-keys", [0, 5, 6, 7, 1, 2, 3, 4]),
        ("ask-before-asks", [0, 1, 2, 3, 4, 6, 5, 7]),
        ("key-after-asks", [0, 1, 2, 3, 5, 4, 6, 7]),
        ("bucket-last", [1, 2, 3, 4, 5, 6, 7, 0]),
    ] {
        let lines: Vec<Vec<u8>> = order.iter().map(|&place| lines()[place].clone()).collect();
        cases.push(case(format!("bad-order-{name}"), joined(&lines), Some(8)));
    }
}

fn bad_whole(cases: &mut Vec<Case>) {
    let good = joined(&lines());
    let mut add = |name: &str, input: Vec<u8>| {
        cases.push(case(format!("bad-{name}"), input, Some(8)));
    };
    add("empty-input", Vec::new());
    add("only-line-feed", b"\n".to_vec());
    add("only-nul", vec![0]);
    add("missing-last-line-feed", good[..good.len() - 1].to_vec());
    add("missing-last-line-feed-no-asks", b"bucket=2\nkeys=0\nasks=0".to_vec());
    for lines in [1, 2, 5, 7] {
        let cut = good.split_inclusive(|&byte| byte == b'\n').take(lines).collect::<Vec<_>>();
        add(&format!("ends-after-line-{lines}"), cut.concat());
    }
    add("ends-within-last-line", good[..good.len() - 2].to_vec());
    for (name, more) in [
        ("line-feed", "\n"),
        ("space", " "),
        ("nul", "\0"),
        ("carriage-return", "\r"),
        ("letter", "x"),
        ("garbage-line", "garbage\n"),
        ("key-line", "key=000000000000002d\n"),
        ("bucket-line", "bucket=2\n"),
    ] {
        add(&format!("after-the-end-{name}"), [&good, more.as_bytes()].concat());
    }
    add("after-the-end-byte-255", [&good[..], &[255]].concat());
    add("the-whole-twice", good.repeat(2));
    add("starts-with-line-feed", [b"\n", &good[..]].concat());
    add("starts-with-byte-order-mark", [&[0xEF, 0xBB, 0xBF], &good[..]].concat());
    let text = String::from_utf8(good.clone()).unwrap();
    add("carriage-returns-and-line-feeds", text.replace('\n', "\r\n").into());
    add("carriage-returns-only", text.replace('\n', "\r").into());
    add("last-line-feed-is-carriage-return", [&good[..good.len() - 1], b"\r"].concat());
    add("last-line-feed-is-nul", [&good[..good.len() - 1], b"\0"].concat());
    add("spaces-for-line-feeds", text.replace('\n', " ").into());
    add("upper-case-all", text.to_uppercase().into());

    // Bad text goes before the other refusals, even where only the last byte is bad.
    let bad_bucket = input("1", &[2, 3], &[2]);
    let falling = input("2", &[3, 2], &[2]);
    let both = input("300", &[3, 3], &[2]);
    for (name, text) in [("bad-bucket", bad_bucket), ("falling-keys", falling), ("both", both)] {
        add(&format!("last-byte-missing-and-{name}"), text.as_bytes()[..text.len() - 1].to_vec());
        add(&format!("last-byte-too-many-and-{name}"), (text.clone() + "\n").into());
        let upper_case = text.replace("ask=0000000000000002", "ask=000000000000000A");
        add(&format!("last-digit-and-{name}"), upper_case.into());
    }
}

pub fn cases() -> Vec<Case> {
    let mut cases = Vec::new();
    bad_hex(&mut cases);
    bad_decimal(&mut cases);
    bad_counts(&mut cases);
    bad_labels(&mut cases);
    bad_order(&mut cases);
    bad_whole(&mut cases);
    cases
}
