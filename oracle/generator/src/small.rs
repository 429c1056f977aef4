//! Scripts that go through whole small spaces.

use std::fmt::Write;

use crate::shape::{accepted, placed, Shape, Space};

/// A part of the exhaustive scripts: its name and what writes it.
pub type Part = (String, Box<dyn Fn(&mut Vec<u8>)>);

macro_rules! put {
    ($out:expr, $($words:tt)+) => {{
        let mut line = String::new();
        writeln!(line, $($words)+).expect("a line");
        $out.extend_from_slice(line.as_bytes());
    }};
}

pub fn parts() -> Vec<Part> {
    let mut parts: Vec<Part> = vec![
        ("addresses".into(), Box::new(addresses)),
        ("permissions".into(), Box::new(permissions)),
        ("lines".into(), Box::new(crate::damage::lines)),
        ("damage".into(), Box::new(crate::damage::every)),
    ];
    for base in [0, 0x800, 0x1000, 1 << 40, top(0x3000), top(0x2000), top(0x1000), top(1)] {
        parts.push((format!("frames-{base:x}"), Box::new(move |out| frames(out, base))));
    }
    let mut over = |name: &str, cells: u64, write: fn(&mut Vec<u8>, &Space)| {
        for space in Space::all(cells) {
            let name = format!("{name}-{}", space.name);
            parts.push((name, Box::new(move |out| write(out, &space))));
        }
    };
    over("tables", 5, tables);
    over("order", 4, order);
    over("pieces", 6, pieces);
    over("inserts", 5, inserts);
    over("removes", 5, removes);
    // Long lines and great buffers come last, so that a fault is first met where it is small.
    parts.push(("frames-many".into(), Box::new(frames_many)));
    parts.push(("host".into(), Box::new(host)));
    parts
}

const fn top(below: u64) -> u64 {
    0u64.wrapping_sub(below)
}

/// Every pair of some numbers around each end and each middle, for every address operation.
fn addresses(out: &mut Vec<u8>) {
    let ends = [0, 1 << 12, 1 << 31, 1 << 32, 1 << 63];
    let mut numbers: Vec<u64> =
        ends.iter().flat_map(|n: &u64| [n.wrapping_sub(1), *n, n.wrapping_add(1)]).collect();
    numbers.extend([2, 0xff, 0x0f0f0f0f0f0f0f0f, 0xf0f0f0f0f0f0f0f0, top(2), top(0x1000)]);
    for a in &numbers {
        for b in &numbers {
            for name in ["add", "sub", "offset", "mask"] {
                put!(out, "{name} {a:#x} {b:#x}");
            }
        }
    }
}

/// Raw permission numbers: the four, and others that are equal to one of them in fewer bits.
fn permissions(out: &mut Vec<u8>) {
    put!(out, "slices 0 1 4");
    put!(out, "host 2");
    put!(out, "slices 0 1 4");
    put!(out, "ram 0 2 0");
    put!(out, "window 2 1");
    put!(out, "collect");
    let wide = [1 << 16, 1 << 31, 1 << 32, 1 << 63, top(4)];
    let numbers = (0..=0x104).chain(wide.into_iter().flat_map(|n: u64| n - 1..=n + 3));
    for access in numbers {
        for (address, count) in [(0, 0), (0, 1), (1, 2), (3, 1)] {
            put!(out, "slices {address} {count} {access:#x}");
        }
    }
}

/// Every piece of every small buffer, and pieces around the ends of greater ones.
fn host(out: &mut Vec<u8>) {
    put!(out, "digest");
    put!(out, "bytes 0 0");
    for length in 0..=9 {
        put!(out, "host {length}");
        put!(out, "digest");
        for place in 0..=length + 2 {
            for count in 0..=length + 2 {
                put!(out, "bytes {place} {count}");
            }
        }
    }
    for length in [0, 1, 0xff, 0x100, 0x101, 0xfff, 0x1000, 0xffffff, 0x1000000u64] {
        put!(out, "host {length:#x}");
        put!(out, "digest");
        let places = [0, length.wrapping_sub(1), length, length + 1, 1 << 63, top(length), top(1)];
        for place in places {
            for count in [0, 1, 2, 0x10, 0x101, 0x1000000, 0x1000001, top(place), top(1)] {
                // One long answer is enough.
                if count < 0x1000 || place != 0 {
                    put!(out, "bytes {place:#x} {count:#x}");
                }
            }
        }
    }
    for length in [0x1000001, 1 << 32, top(1)] {
        put!(out, "host {length:#x}");
        put!(out, "digest");
    }
}

/// Questions at every address around the space and of every count that fits it and two more.
fn ask(out: &mut Vec<u8>, space: &Space) {
    put!(out, "last");
    for address in space.around() {
        put!(out, "find {address:#x}");
    }
    for address in space.around() {
        for count in 0..=space.cells + 2 {
            // Without translation the access makes no difference, so the four take turns.
            put!(out, "slices {address:#x} {count:#x} {}", address.wrapping_add(count) % 4);
        }
        put!(out, "slices {address:#x} {:#x} 1", u64::MAX);
    }
}

fn collect(out: &mut Vec<u8>, table: &[Shape]) {
    for shape in table {
        put!(out, "{}", shape.words());
    }
    put!(out, "collect");
}

/// Every table of one or two regions, unsound ones too.
fn tables(out: &mut Vec<u8>, space: &Space) {
    const HOST: u64 = 3;
    let places: Vec<Option<u64>> = (0..=HOST).map(Some).chain([None]).collect();
    let mut shapes = Vec::new();
    for start in space.starts() {
        for length in 0..=space.cells {
            shapes.extend(places.iter().map(|place| Shape { start, length, place: *place }));
        }
    }
    for first in &shapes {
        put!(out, "host {HOST}");
        let alone = [*first];
        let pairs = shapes.iter().map(|second| vec![*first, *second]);
        for table in std::iter::once(alone.to_vec()).chain(pairs) {
            collect(out, &table);
            if accepted(&table, HOST) {
                ask(out, space);
            }
        }
        // What the last refusals left.
        put!(out, "count");
        put!(out, "collect");
        put!(out, "last");
    }
}

/// Every table of three windows, empty ones too: which question comes first.
fn order(out: &mut Vec<u8>, space: &Space) {
    let mut shapes = Vec::new();
    for start in space.starts() {
        shapes.extend((0..=space.cells).map(|length| Shape { start, length, place: None }));
    }
    for a in &shapes {
        put!(out, "host 0");
        for b in &shapes {
            for c in &shapes {
                collect(out, &[*a, *b, *c]);
            }
        }
        put!(out, "count");
    }
}

/// Every collection of three regions at every place, and every range over it.
fn pieces(out: &mut Vec<u8>, space: &Space) {
    const HOST: u64 = 2;
    for ranges in space.disjoint(3) {
        put!(out, "host {HOST}");
        for table in placed(&ranges, HOST) {
            collect(out, &table);
            ask(out, space);
        }
    }
}

/// Makes a collection of these windows, which may be none.
fn stand(out: &mut Vec<u8>, ranges: &[(u64, u64)], host: u64) {
    put!(out, "host {host}");
    let shapes: Vec<Shape> = ranges
        .iter()
        .map(|(start, length)| Shape { start: *start, length: *length, place: None })
        .collect();
    if shapes.is_empty() {
        put!(out, "window 0 1");
        put!(out, "collect");
        put!(out, "remove 0 0 1");
    } else {
        collect(out, &shapes);
    }
    put!(out, "count");
}

/// Every insertion into every collection of up to two regions.
fn inserts(out: &mut Vec<u8>, space: &Space) {
    const HOST: u64 = 4;
    for count in 0..=2u64 {
        for ranges in space.disjoint(count as usize) {
            stand(out, &ranges, HOST);
            for start in space.starts() {
                for length in 0..=space.cells {
                    for place in [None, Some(0), Some(3)] {
                        let new = Shape { start, length, place };
                        for room in [0, count, count + 1, u64::MAX] {
                            put!(out, "insert {room:#x} {}", new.words());
                            let clear = ranges.iter().all(|(start, length)| {
                                new.clear_of(&Shape { start: *start, length: *length, place: None })
                            });
                            if room > count && new.sound(HOST) && clear {
                                put!(out, "last");
                                for address in space.around() {
                                    put!(out, "find {address:#x}");
                                }
                                put!(out, "slices {start:#x} {:#x} 1", space.cells);
                                put!(out, "remove {count:#x} {start:#x} {length:#x}");
                            }
                        }
                    }
                }
            }
            put!(out, "count");
        }
    }
}

/// Every removal from every collection of up to three regions.
fn removes(out: &mut Vec<u8>, space: &Space) {
    for count in 0..=3u64 {
        for ranges in space.disjoint(count as usize) {
            stand(out, &ranges, 0);
            for start in space.around() {
                for length in 0..=space.cells + 1 {
                    for room in
                        [0, count.saturating_sub(2), count.saturating_sub(1), count, u64::MAX]
                    {
                        put!(out, "remove {room:#x} {start:#x} {length:#x}");
                        if room.saturating_add(1) >= count && ranges.contains(&(start, length)) {
                            put!(out, "last");
                            for address in space.around() {
                                put!(out, "find {address:#x}");
                            }
                            put!(out, "insert {count:#x} window {start:#x} {length:#x}");
                        }
                    }
                }
            }
            put!(out, "count");
        }
    }
}

/// Every frame memory of up to three entries at one base.
fn frames(out: &mut Vec<u8>, base: u64) {
    const HOST: u64 = 0x3000;
    const VALUES: u64 = 5;
    for count in 0..=3 {
        for mut choice in 0..VALUES.pow(count) {
            let entries: Vec<u64> = (0..count)
                .map(|_| {
                    let entry = choice % VALUES;
                    choice /= VALUES;
                    entry
                })
                .collect();
            put!(out, "host {HOST:#x}");
            put!(out, "window 0 1");
            let words: String = entries.iter().map(|entry| format!(" {entry}")).collect();
            put!(out, "frames {base:#x}{words}");
            put!(out, "count");
            let end = u128::from(base) + 0x1000 * entries.len() as u128;
            if base.is_multiple_of(0x1000)
                && end <= 1 << 64
                && entries.iter().all(|e| e * 0x1000 <= HOST)
            {
                put!(out, "last");
                for at in [0u64.wrapping_sub(1), 0, 0xfff, 0x1000, 0x1fff, 0x2000, 0x2fff, 0x3000] {
                    let address = base.wrapping_add(at);
                    put!(out, "find {address:#x}");
                    for n in
                        [0, 1, 2, 0xfff, 0x1000, 0x1001, 0x2000, 0x2001, 0x3000, 0x3001, u64::MAX]
                    {
                        put!(out, "slices {address:#x} {n:#x} {}", n % 4);
                    }
                }
            }
            // No region goes into frame memory or out of it, and the table to collect outlives it.
            put!(out, "insert 9 window 0x7000 1");
            put!(out, "remove 9 {base:#x} 0x1000");
            put!(out, "collect");
            put!(out, "find 0");
            put!(out, "insert 2 window 9 1");
        }
    }
}

/// The number of entries and the value of one, at their bounds.
fn frames_many(out: &mut Vec<u8>) {
    put!(out, "frames 0 1");
    put!(out, "frames 0");
    put!(out, "host 0x4000");
    put!(out, "frames");
    put!(out, "count");
    for count in [0usize, 1, 1023, 1024, 1025] {
        for base in [0, 1, 0x1000, top(0x400000), top(0x3ff000), top(0x401000)] {
            for entry in ["0", "1", "4", "5"] {
                put!(out, "frames {base:#x}{}", format!(" {entry}").repeat(count));
                put!(out, "count");
                put!(out, "last");
                put!(out, "find {:#x}", base.wrapping_add(0x3fffff));
                put!(out, "slices {base:#x} 0x400001 1");
            }
        }
    }
    for entry in
        ["0xfffff", "0x100000", "0xffffffff", "0x100000000", "0xffffffffffffffff", "-", "none"]
    {
        put!(out, "frames 0x1000 1 {entry} 2");
        put!(out, "count");
    }
    for bad in 0..8 {
        let words: String = (0..8).map(|n| if n >= bad { " 5" } else { " 2" }).collect();
        put!(out, "frames 0{words}");
    }
}
