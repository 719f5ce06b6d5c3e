//! Lines that are badly written, or look so.

use crate::rules::Status;
use crate::writer::Writer;

/// Lines that hold no call, or hold one in an odd form.
const ODD: &[&str] = &[
    "",
    "   ",
    "\t\r",
    "\r",
    "#",
    "# begin",
    "#begin",
    "begin#",
    " begin",
    "\tbegin\r",
    "begin # a comment with begin in it",
    "begin begin",
    "begin 0",
    "Begin",
    "BEGIN",
    "begin\u{b}",
    "begin\u{c}",
    "begin\0",
    "\0",
    "b egin",
    "beginn",
    "begi",
    "frobnicate",
    "frobnicate 1 2 3",
    "?",
    "line 1 ?",
    "-",
    "close now",
    "open 1",
    "table 1",
    "log x",
    "save",
    "save a b",
    "save nowhere/day",
    "save .",
    "save /dev/full",
    "save # name",
    "order",
    "commit",
    "giveup",
    "give up 32",
    "read",
    "write",
    "post",
    "post 0",
    "post 0 0011223344556677 1",
    "post 0 001122334455667",
    "post 0 00112233445566778",
    "post 0 001122334455667g",
    "post 0 0x11223344556677",
    "post 0 00112233 44556677",
    "post 0 \"0011223344556677\"",
    "post x 0011223344556677",
    "post -1 0011223344556677",
    "post 4294967296 0011223344556677",
    "post 00000000000000000000000000000000000001 00112233AABBCCDD",
    "post 1 aAbBcCdDeEfF0099",
    "post 1 \u{e9}\u{e9}\u{e9}\u{e9}",
    "begin\u{a0}",
    "\u{feff}begin",
];

/// Numbers in odd forms.
const NUMBERS: &[&str] = &[
    "+32",
    "-32",
    "-0",
    "032",
    "0000000000000000000000000000000032",
    "32.",
    "3 2",
    "0x20",
    "32u",
    "4294967295",
    "4294967296",
    "04294967295",
    "4294967328",
    "18446744073709551616",
    "18446744073709551648",
    "99999999999999999999999999999999999999999999",
    "1e1",
    "",
    "#32",
    "32#",
    "\u{663}",
];

/// Lengths on both sides of the longest line.
const LENGTHS: &[usize] = &[
    253, 254, 255, 255, 256, 256, 257, 300, 511, 512, 1000, 4096, 70_000,
];

/// A line that is badly written, or looks so.
pub fn bad_line(writer: &mut Writer) {
    match writer.random.below(10) {
        0..=3 => {
            let line = writer.random.pick(ODD);
            writer.text(line);
        }
        4 | 5 => odd_number(writer),
        6 | 7 => long_line(writer),
        8 => spaced_out(writer),
        _ => scrambled(writer),
    }
}

/// A call that would do something, as words.
fn good_words(writer: &mut Writer) -> Vec<String> {
    let handle = writer.handle(Status::Live).to_string();
    let (cell, value) = (writer.cell().to_string(), writer.value());
    let words: Vec<&str> = match writer.random.below(8) {
        0 => vec!["begin"],
        1 => vec!["read", &handle, &cell],
        2 => vec!["write", &handle, &cell, &value],
        3 => vec!["commit", &handle],
        4 => vec!["giveup", &handle],
        5 => vec!["post", &cell, &value],
        6 => vec!["order", &handle],
        _ => vec!["table"],
    };
    words.into_iter().map(str::to_string).collect()
}

/// A call with one of its numbers in an odd form, or a word too many or too few.
fn odd_number(writer: &mut Writer) {
    let mut words = good_words(writer);
    let at = writer.random.below(words.len());
    match writer.random.below(5) {
        0 => {
            words.remove(at);
        }
        1 => words.push("0".to_string()),
        2 => words[at] = words[at].to_uppercase(),
        _ => words[at] = writer.random.pick(NUMBERS).to_string(),
    }
    writer.text(&words.join(" "));
}

/// A call, a comment or a value that makes a line of 253 bytes or more.
fn long_line(writer: &mut Writer) {
    let length = writer.random.pick(LENGTHS);
    let mut line = good_words(writer).join(" ").into_bytes();
    match writer.random.below(6) {
        0 => line.resize(length, b' '),
        1 => line.resize(length, b'\t'),
        2 => {
            line.resize(length - 1, b' ');
            line.push(b'\r');
        }
        3 => {
            line.extend(b" #");
            line.resize(length, b'x');
        }
        4 => line = [b"#".to_vec(), vec![b'x'; length - 1]].concat(),
        _ => {
            line = b"post 1 ".to_vec();
            line.resize(length, b'a');
        }
    }
    writer.say(&line);
}

/// A call with spaces, tabs and carriage returns between and around its words, and a comment behind.
fn spaced_out(writer: &mut Writer) {
    let mut line = String::new();
    for word in good_words(writer) {
        for _ in 0..writer.random.between(1, 4) {
            line.push(writer.random.pick(&[' ', '\t', '\r']));
        }
        line += &word;
    }
    line += writer
        .random
        .pick(&["", "\r", " ", "#", " # close", "\t#\0", "\r\r"]);
    writer.text(&line);
}

/// A call with some byte changed, left out or put in.
fn scrambled(writer: &mut Writer) {
    let mut line = good_words(writer).join(" ").into_bytes();
    let at = writer.random.below(line.len());
    let byte = match writer.random.next() as u8 {
        b'\n' => b' ',
        byte => byte,
    };
    match writer.random.below(3) {
        0 => line[at] = byte,
        1 => line.insert(at, byte),
        _ => {
            line.remove(at);
        }
    }
    writer.say(&line);
}
