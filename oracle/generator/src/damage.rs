//! Good lines with one thing wrong, and odd lines.

/// A line of each form that this delivery knows.
pub const GOOD: &[&str] = &[
    "host 0x40",
    "host 64",
    "ram 0x10 0x20 8",
    "window 0x30 7",
    "collect",
    "frames 0x1000 0",
    "frames 0",
    "insert 9 ram 0x50 4 0",
    "insert 0x9 window 0x60 4",
    "remove 5 0x10 0x20",
    "count",
    "find 0x1F",
    "last",
    "add 0xffffffffffffffff 1",
    "sub 12 0x0c",
    "offset 9 0xa",
    "mask 0x1234 0xFF",
    "slices 0x10 0x21 1",
    "slices 0 0 3",
    "bytes 0x3e 2",
    "digest",
];

/// States of a box: before the host, with a host alone, above a collection, above frames.
const STATES: &[&[&str]] = &[
    &[],
    &["host 0x40"],
    &["host 0x40", "ram 0x10 0x20 8", "collect"],
    &["host 0x1000", "window 0x20 1", "frames 0 1"],
];

/// What is put in at each point: blanks, line ends, digits, signs, letters, text that is none.
const PUT: &[&[u8]] = &[
    b" ",
    b"\t",
    b"\r",
    b"\x0b",
    b"\0",
    b"0",
    b"9",
    b"x",
    b"X",
    b"f",
    b"g",
    b"+",
    b"-",
    b"_",
    b".",
    b"#",
    "\u{a0}".as_bytes(),
    "\u{663}".as_bytes(),
    b"\xff",
    b"\xc3",
];

fn push(out: &mut Vec<u8>, line: &[u8]) {
    out.extend_from_slice(line);
    out.push(b'\n');
}

/// Every single edit of every good line, in every state.
pub fn every(out: &mut Vec<u8>) {
    // The state before the first host exists once in a script, so it comes first and without a
    // line that would end it.
    for (n, state) in STATES.iter().enumerate() {
        for good in GOOD {
            if n == 0 && good.starts_with("host") {
                continue;
            }
            let good = good.as_bytes();
            for line in state.iter() {
                push(out, line.as_bytes());
            }
            push(out, good);
            for at in 0..=good.len() {
                for put in PUT {
                    push(out, &[&good[..at], put, &good[at..]].concat());
                }
                if at < good.len() {
                    push(out, &[&good[..at], &good[at + 1..]].concat());
                    push(out, &[&good[..at], &good[at..at + 1], &good[at..]].concat());
                    let turned = [good[at] ^ 0x20];
                    push(out, &[&good[..at], &turned, &good[at + 1..]].concat());
                    push(out, &good[..at]);
                }
            }
            for more in [" 0", " 0x1", " none", " -", " 0 0"] {
                push(out, &[good, more.as_bytes()].concat());
            }
            push(out, b"count");
            push(out, b"digest");
        }
    }
}

/// Numbers at the bounds of the format, lines that answer nothing, lines that are no text.
pub fn lines(out: &mut Vec<u8>) {
    let zeros = "0".repeat(300);
    let numbers = [
        "0",
        "00",
        "0x0",
        "0x00",
        "18446744073709551615",
        "18446744073709551616",
        "018446744073709551615",
        "36893488147419103232",
        "0xffffffffffffffff",
        "0xFFFFFFFFFFFFFFFF",
        "0xFfFfFfFfFfFfFfFf",
        "0x10000000000000000",
        "0x0ffffffffffffffff",
        "0x00010000000000000000",
        "99999999999999999999999999",
        "0x",
        "0X1",
        "x1",
        "1x",
        "1_000",
        "0b1",
        "0o7",
        "+1",
        "-1",
        "-0",
        "1.0",
        "1e3",
        "ff",
        "0xg",
        "0x-1",
        "0x+1",
        "0x 1",
        "",
        "none",
        "true",
        "-",
    ];
    for number in numbers {
        push(out, format!("add {number} 0").as_bytes());
        push(out, format!("add 0 {number}").as_bytes());
        push(out, format!("mask {number} {number}").as_bytes());
    }
    push(out, format!("add {zeros}7 0x{zeros}7").as_bytes());
    push(out, format!("add 0x1{zeros} 0").as_bytes());
    push(out, format!("add {zeros} 1{zeros}").as_bytes());
    for line in
        ["", " ", "  ", "   ", "#", "##", "# add 1 2", "#add 1 2", "#\t\r", "# \u{e9}\u{1f511}"]
    {
        push(out, line.as_bytes());
        push(out, b"add 1 1");
    }
    for line in [
        " #",
        " # add 1 2",
        "\t",
        "\r",
        " \t",
        "\t ",
        "add 1 2#",
        "add 1 2 #",
        "\u{feff}add 1 2",
        "\u{a0}",
    ] {
        push(out, line.as_bytes());
    }
    // No text in UTF-8: stray, cut short, overlong, half of a pair, past the last character.
    for bytes in [
        &b"\x80"[..],
        b"\xff",
        b"\xc3",
        b"\xe2\x82",
        b"\xf0\x9f\x94",
        b"\xc0\x80",
        b"\xe0\x80\x80",
        b"\xed\xa0\x80",
        b"\xf4\x90\x80\x80",
        b"\xf8\x88\x80\x80\x80",
    ] {
        push(out, bytes);
        push(out, &[b"add 1 2", bytes].concat());
        push(out, &[b" ", bytes].concat());
        push(out, &[b"# ", bytes].concat());
    }
    for word in [
        "Host 1",
        "HOST 1",
        "hosts 1",
        "hos 1",
        "",
        "ok",
        "error",
        "collectcollect",
        "ram",
        "window",
    ] {
        push(out, word.as_bytes());
    }
    push(out, b"host 2");
    push(out, b"digest");
    // The last line has no newline.
    out.extend_from_slice(b"add 0x10 0x20");
}
