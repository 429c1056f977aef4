//! Seeded scripts around every boundary.

use crate::damage;
use crate::shape::{accepted, Shape};

/// SplitMix64: the same numbers on every machine.
struct Dice(u64);

impl Dice {
    fn next(&mut self) -> u64 {
        self.0 = self.0.wrapping_add(0x9e3779b97f4a7c15);
        let mut z = self.0;
        z = (z ^ (z >> 30)).wrapping_mul(0xbf58476d1ce4e5b9);
        z = (z ^ (z >> 27)).wrapping_mul(0x94d049bb133111eb);
        z ^ (z >> 31)
    }

    fn below(&mut self, n: u64) -> u64 {
        self.next() % n
    }

    fn pick<T: Copy>(&mut self, of: &[T]) -> T {
        of[self.below(of.len() as u64) as usize]
    }

    fn one_in(&mut self, n: u64) -> bool {
        self.below(n) == 0
    }
}

struct Writer {
    dice: Dice,
    out: Vec<u8>,
    lines: u64,
    host: u64,
    /// What probably stands, to aim at.
    regions: Vec<Shape>,
}

/// A script of about this many lines.
pub fn script(seed: u64, lines: u64) -> Vec<u8> {
    let mut w =
        Writer { dice: Dice(seed), out: Vec::new(), lines: 0, host: 0, regions: Vec::new() };
    while w.lines < lines {
        w.chapter();
    }
    w.out
}

impl Writer {
    /// A host, then tables, questions and edits above it.
    fn chapter(&mut self) {
        self.host =
            self.dice.pick(&[0, 1, 2, 3, 7, 8, 9, 16, 17, 40, 64, 255, 256, 257, 0x1000, 0x3000]);
        self.regions.clear();
        let host = self.number(self.host);
        self.line(&["host", &host]);
        if self.dice.one_in(4) {
            self.questions(3);
        }
        for round in 0..1 + self.dice.below(3) {
            if self.dice.one_in(5) {
                self.frames();
            } else {
                // Most chapters begin with a table that stands, or all that follows is an error.
                let spoilt = self.dice.one_in(if round == 0 { 8 } else { 2 });
                self.table(spoilt);
            }
            let many = 4 + self.dice.below(24);
            self.questions(many);
            for _ in 0..self.dice.below(8) {
                self.edit();
                self.questions(3);
            }
        }
    }

    fn line(&mut self, words: &[&str]) {
        let mut line = words.join(" ").into_bytes();
        if self.dice.one_in(40) {
            self.spoil(&mut line);
        }
        self.out.extend_from_slice(&line);
        self.out.push(b'\n');
        self.lines += 1;
        if self.dice.one_in(60) {
            let odd =
                self.dice.pick(&["", " ", "   ", "# a remark", "#", "\t", " count", "count "]);
            self.out.extend_from_slice(odd.as_bytes());
            self.out.push(b'\n');
        }
    }

    /// One or two edits of a line. A newline may come in, and makes two lines of it.
    fn spoil(&mut self, line: &mut Vec<u8>) {
        for _ in 0..1 + self.dice.below(2) {
            let at = self.dice.below(line.len() as u64 + 1) as usize;
            match self.dice.below(4) {
                0 if at < line.len() => {
                    line.remove(at);
                }
                1 if at < line.len() => line.truncate(at),
                2 if at < line.len() => line[at] ^= 1 << self.dice.below(8),
                _ => line.insert(at, self.dice.pick(b" \t\r\n0123456789abcdefxX+-_#\xff\xc3")),
            }
        }
    }

    /// A number in one of the ways to write it.
    fn number(&mut self, n: u64) -> String {
        match self.dice.below(8) {
            0 => format!("{n}"),
            1 => format!("0x{n:X}"),
            2 => format!("0x{n:020x}"),
            3 => format!("0{n}"),
            _ => format!("{n:#x}"),
        }
    }

    /// Near an end of the address space, of the host or of a region; seldom anywhere.
    fn address(&mut self) -> u64 {
        let ends = [0, 1 << 63, 0x1000, self.host];
        let base = match self.dice.below(8) {
            0 => self.dice.next(),
            1 | 2 => self.dice.pick(&ends),
            _ if self.regions.is_empty() => self.dice.pick(&ends),
            _ => {
                let region = self.dice.pick(&self.regions);
                let end = region.end() as u64;
                self.dice.pick(&[region.start, end, region.start.wrapping_add(region.length / 2)])
            }
        };
        base.wrapping_add(self.dice.pick(&[0, 0, 0, 1, 2, 3]))
            .wrapping_sub(self.dice.pick(&[0, 0, 1, 2]))
    }

    /// Zero, one, near a length, from one end to another, past the top, all there are.
    fn count(&mut self, from: u64) -> u64 {
        match self.dice.below(8) {
            0 => 0,
            1 => 1,
            2 => 0u64.wrapping_sub(from),
            3 => 0u64.wrapping_sub(from).wrapping_add(self.dice.below(20)),
            4 => self.dice.pick(&[u64::MAX, u64::MAX - 1, 1 << 63, 1 << 32]),
            5 => self.address().wrapping_sub(from),
            _ => self.dice.below(40),
        }
    }

    /// An ascending table, and one thing wrong with it where it is spoilt.
    fn table(&mut self, spoilt: bool) {
        let mut table = Vec::new();
        let mut at: u128 = match self.dice.below(4) {
            0 => 0,
            1 => (1 << 64) - u128::from(1 + self.dice.below(60)),
            2 => u128::from(self.dice.next()),
            _ => u128::from(self.dice.below(0x2000)),
        };
        let many = if spoilt { self.dice.below(7) } else { 1 + self.dice.below(6) };
        for _ in 0..many {
            let length = match self.dice.below(10) {
                0 => self.dice.next() >> self.dice.below(64),
                1 => 0x1000,
                2 => self.host.max(1),
                _ => 1 + self.dice.below(17),
            };
            if at >= 1 << 64 {
                break;
            }
            let room = (1u128 << 64) - at;
            // Up to the very top now and then.
            let length = if self.dice.one_in(12) {
                room.min(u64::MAX.into()) as u64
            } else {
                room.min(length.into()) as u64
            };
            let place = self.place(length);
            table.push(Shape { start: at as u64, length, place });
            at += u128::from(length) + u128::from(self.dice.pick(&[0u64, 0, 1, 2, 9]));
        }
        // A low region below those at the top, so that a range can run past 2^64.
        if self.dice.one_in(3) && table.first().is_some_and(|first: &Shape| first.start > 0x100) {
            let length = 1 + self.dice.below(12);
            let place = self.place(length);
            table.insert(0, Shape { start: 0, length, place });
        }
        if !table.is_empty() && spoilt {
            self.spoil_table(&mut table);
        }
        for shape in &table {
            self.region(&[], *shape);
        }
        self.line(&["collect"]);
        if accepted(&table, self.host) {
            self.regions = table;
        }
    }

    /// Within the host where it fits, and seldom elsewhere.
    fn place(&mut self, length: u64) -> Option<u64> {
        if self.dice.one_in(5) || (length > self.host && !self.dice.one_in(30)) {
            return None;
        }
        Some(match self.dice.below(40) {
            0 => self.dice.pick(&[self.host, self.host + 1, u64::MAX, 0u64.wrapping_sub(length)]),
            n => (self.host + 1).saturating_sub(length).checked_sub(1).map_or(0, |most| {
                match n % 3 {
                    0 => most,
                    1 => 0,
                    _ => self.dice.below(most + 1),
                }
            }),
        })
    }

    fn spoil_table(&mut self, table: &mut Vec<Shape>) {
        let at = self.dice.below(table.len() as u64) as usize;
        let other = self.dice.below(table.len() as u64) as usize;
        match self.dice.below(8) {
            0 => table.swap(at, other),
            1 => table[at].length = 0,
            2 => table[at].length = table[at].length.wrapping_add(self.dice.below(4)),
            3 => table[at].start = table[other].start,
            4 => table[at].start = table[at].start.wrapping_sub(1),
            5 => table[at].place = Some(self.address()),
            6 => {
                let again = table[at];
                table.insert(other, again);
            }
            _ => {
                table[at].start =
                    0u64.wrapping_sub(table[at].length).wrapping_add(self.dice.below(3))
            }
        }
    }

    fn region(&mut self, before: &[&str], shape: Shape) {
        let (start, length) = (self.number(shape.start), self.number(shape.length));
        let place = shape.place.map(|place| self.number(place));
        let words = match &place {
            Some(place) => vec!["ram", &start, &length, place],
            None => vec!["window", &start, &length],
        };
        self.line(&[before, &words].concat());
    }

    fn frames(&mut self) {
        let count = match self.dice.below(60) {
            0 => 1024,
            1 => 1025,
            2 => 0,
            _ => 1 + self.dice.below(6),
        };
        let base = match self.dice.below(8) {
            0 => self.address(),
            1 => 0u64.wrapping_sub(0x1000 * count),
            2 => 0u64.wrapping_sub(0x1000 * self.dice.below(count + 2)),
            3 => 0x1000 * self.dice.below(5) + (1 << self.dice.below(13)),
            _ => 0x1000 * self.dice.below(5),
        };
        let mut words = vec!["frames".to_string(), self.number(base)];
        self.regions.clear();
        let fit = self.host / 0x1000;
        for n in 0..count {
            let entry = match self.dice.below(24) {
                0 if count < 100 => {
                    self.dice.pick(&[fit + 1, 5, 0xfffff, 0x100000, 0xffffffff, 1 << 32])
                }
                1..=6 => 0,
                _ => self.dice.below(fit + 1),
            };
            words.push(self.number(entry));
            if entry != 0 && self.regions.len() < 8 {
                let start = base.wrapping_add(0x1000 * n);
                self.regions.push(Shape { start, length: 0x1000, place: None });
            }
        }
        let words: Vec<&str> = words.iter().map(String::as_str).collect();
        self.line(&words);
    }

    /// An insertion or a removal, mostly with just enough room or one too little.
    fn edit(&mut self) {
        let count = self.regions.len() as u64;
        let near = self.dice.below(3);
        if self.dice.one_in(2) {
            let room = match self.dice.below(6) {
                0 => self.dice.pick(&[0, u64::MAX]),
                _ => count + near,
            };
            let start = self.address();
            let length = match self.dice.below(10) {
                0 => 0,
                1 => self.count(start),
                _ => 1 + self.dice.below(9),
            };
            let new = Shape { start, length, place: self.place(length) };
            let room_word = self.number(room);
            self.region(&["insert", &room_word], new);
            if room > count && new.sound(self.host) && self.regions.iter().all(|r| r.clear_of(&new))
            {
                self.regions.push(new);
                self.regions.sort_by_key(|region| region.start);
            }
        } else {
            let room = match self.dice.below(6) {
                0 => self.dice.pick(&[0, u64::MAX]),
                _ => (count + near).saturating_sub(2),
            };
            let (mut start, mut length) = match self.regions.is_empty() {
                true => (self.address(), 1),
                false => {
                    let region = self.dice.pick(&self.regions);
                    (region.start, region.length)
                }
            };
            match self.dice.below(8) {
                0 => start = start.wrapping_add(1),
                1 => length = length.wrapping_sub(1),
                2 => length = length.wrapping_add(1),
                _ => {}
            }
            let words = [self.number(room), self.number(start), self.number(length)];
            self.line(&["remove", &words[0], &words[1], &words[2]]);
            if room.saturating_add(1) >= count {
                self.regions.retain(|region| (region.start, region.length) != (start, length));
            }
        }
    }

    fn questions(&mut self, many: u64) {
        for _ in 0..many {
            match self.dice.below(20) {
                0 => self.line(&["count"]),
                1 => self.line(&["last"]),
                2 if self.host < 300 || self.dice.one_in(10) => self.line(&["digest"]),
                3 | 4 => {
                    let place =
                        self.dice.pick(&[0, self.host / 2, self.host.saturating_sub(1), self.host]);
                    let place = if self.dice.one_in(4) { self.address() } else { place };
                    let count = match self.dice.below(4) {
                        0 => self.host.wrapping_sub(place),
                        1 => self.host.wrapping_sub(place).wrapping_add(1),
                        2 => self.dice.below(10),
                        _ => self.count(place),
                    };
                    self.two("bytes", place, count);
                }
                5 | 6 => {
                    let name = self.dice.pick(&["add", "sub", "offset", "mask"]);
                    let (a, b) = (self.address(), self.address());
                    self.two(name, a, b);
                }
                7..=10 => {
                    let address = self.address();
                    let word = self.number(address);
                    self.line(&["find", &word]);
                }
                11 if self.dice.one_in(4) => {
                    let good = self.dice.pick(damage::GOOD);
                    // A host line would end the chapter's aim.
                    if !good.starts_with("host") {
                        self.line(&[good]);
                    }
                }
                _ => {
                    let address = self.address();
                    let count = self.count(address);
                    let access = if self.dice.one_in(20) {
                        self.dice.pick(&[4, 5, 255, 256, 1 << 32, u64::MAX])
                    } else {
                        self.dice.below(4)
                    };
                    let words = [self.number(address), self.number(count), self.number(access)];
                    self.line(&["slices", &words[0], &words[1], &words[2]]);
                }
            }
        }
    }

    fn two(&mut self, name: &str, a: u64, b: u64) {
        let (a, b) = (self.number(a), self.number(b));
        self.line(&[name, &a, &b]);
    }
}
