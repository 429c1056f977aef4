//! Regions as scripts name them, and small spaces of them.
//!
//! The generator guesses which tables are accepted only to choose where questions are worth
//! asking. A wrong guess makes a poorer script, not a wrong comparison.

/// RAM at a host place, or a window without one.
#[derive(Clone, Copy, PartialEq)]
pub struct Shape {
    pub start: u64,
    pub length: u64,
    pub place: Option<u64>,
}

impl Shape {
    /// As `ram START LENGTH PLACE` or `window START LENGTH`.
    pub fn words(&self) -> String {
        match self.place {
            Some(place) => format!("ram {:#x} {:#x} {place:#x}", self.start, self.length),
            None => format!("window {:#x} {:#x}", self.start, self.length),
        }
    }

    /// One past the last address.
    pub fn end(&self) -> u128 {
        u128::from(self.start) + u128::from(self.length)
    }

    pub fn sound(&self, host: u64) -> bool {
        let ends = |place| u128::from(place) + u128::from(self.length);
        self.length > 0
            && self.end() <= 1 << 64
            && self.place.is_none_or(|p| ends(p) <= host.into())
    }

    pub fn clear_of(&self, other: &Shape) -> bool {
        self.end() <= other.start.into() || other.end() <= self.start.into()
    }
}

pub fn accepted(table: &[Shape], host: u64) -> bool {
    !table.is_empty()
        && table.iter().all(|shape| shape.sound(host))
        && table.windows(2).all(|pair| pair[0].end() <= pair[1].start.into())
}

/// A handful of addresses, ascending, over which every range is tried.
pub struct Space {
    pub name: &'static str,
    first: u64,
    pub cells: u64,
}

impl Space {
    /// At the bottom, in the middle, at the top, and across the top into the bottom.
    pub fn all(cells: u64) -> [Space; 4] {
        [
            Space { name: "bottom", first: 0, cells },
            Space { name: "middle", first: 0x1000, cells },
            Space { name: "top", first: 0u64.wrapping_sub(cells), cells },
            Space { name: "across", first: 0u64.wrapping_sub(cells / 2), cells },
        ]
    }

    pub fn starts(&self) -> Vec<u64> {
        (0..self.cells).map(|n| self.first.wrapping_add(n)).collect()
    }

    /// The cells, with one address more on either side.
    pub fn around(&self) -> Vec<u64> {
        (0..self.cells + 2).map(|n| self.first.wrapping_add(n).wrapping_sub(1)).collect()
    }

    /// Every choice of `count` ranges that share no address, each of at least one cell, ascending.
    pub fn disjoint(&self, count: usize) -> Vec<Vec<(u64, u64)>> {
        let mut cells = self.starts();
        cells.sort_unstable();
        let mut found = vec![Vec::new()];
        for _ in 0..count {
            found = found
                .iter()
                .flat_map(|chosen: &Vec<(u64, u64)>| {
                    let from = chosen
                        .last()
                        .map_or(0, |(start, length)| u128::from(*start) + u128::from(*length));
                    let ranges = cells
                        .iter()
                        .filter(|start| u128::from(**start) >= from)
                        .flat_map(|start| (1..=self.cells).map(move |length| (*start, length)));
                    ranges
                        .filter(|(start, length)| {
                            (0..*length)
                                .all(|n| start.checked_add(n).is_some_and(|a| cells.contains(&a)))
                        })
                        .map(|range| [chosen.as_slice(), &[range]].concat())
                        .collect::<Vec<_>>()
                })
                .collect();
        }
        found
    }
}

/// Every way to give each range a place below `host` where it fits, or none.
pub fn placed(ranges: &[(u64, u64)], host: u64) -> Vec<Vec<Shape>> {
    let mut tables = vec![Vec::new()];
    for (start, length) in ranges {
        let room = (host + 1).saturating_sub(*length);
        let places: Vec<Option<u64>> = (0..room).map(Some).chain([None]).collect();
        tables = tables
            .iter()
            .flat_map(|table: &Vec<Shape>| {
                places.iter().map(move |place| {
                    let shape = Shape { start: *start, length: *length, place: *place };
                    [table.as_slice(), &[shape]].concat()
                })
            })
            .collect();
    }
    tables
}
