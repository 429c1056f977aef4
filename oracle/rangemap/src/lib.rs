// A stand-in for the crate rangemap: `RangeMap` over a sorted vector, with the calls that vm-memory makes.

use std::ops::Range;

/// A map from the keys of disjoint ranges to values. Ranges that touch and have equal values are one.
#[derive(Clone, Debug)]
pub struct RangeMap<K, V> {
    /// Ascending, no two overlapping, none empty, no two touching with equal values.
    runs: Vec<(Range<K>, V)>,
}

impl<K, V> Default for RangeMap<K, V> {
    fn default() -> Self {
        RangeMap { runs: Vec::new() }
    }
}

impl<K: Ord + Copy, V: Eq + Clone> RangeMap<K, V> {
    /// A map with no key.
    pub fn new() -> Self {
        Self::default()
    }

    /// Gives every key of the range this value. Panics on an empty range, as the real one does.
    pub fn insert(&mut self, range: Range<K>, value: V) {
        self.remove(range.clone());
        let at = self.runs.partition_point(|(run, _)| run.start < range.start);
        self.runs.insert(at, (range, value));
        self.join(at + 1);
        self.join(at);
    }

    /// Takes the keys of the range away. Panics on an empty range, as the real one does.
    pub fn remove(&mut self, range: Range<K>) {
        assert!(range.start < range.end);
        let mut kept = Vec::with_capacity(self.runs.len() + 1);
        for (run, value) in self.runs.drain(..) {
            if run.start < range.start {
                kept.push((run.start..run.end.min(range.start), value.clone()));
            }
            if run.end > range.end {
                kept.push((run.start.max(range.end)..run.end, value));
            }
        }
        self.runs = kept;
    }

    /// Takes every key away.
    pub fn clear(&mut self) {
        self.runs.clear();
    }

    /// The longest stretches of the range that hold no key of the map, ascending.
    pub fn gaps<'a>(&'a self, outer: &'a Range<K>) -> impl Iterator<Item = Range<K>> + 'a {
        let starts = std::iter::once(outer.start)
            .chain(self.overlapping(outer.clone()).map(|(run, _)| run.end));
        let ends = self
            .overlapping(outer.clone())
            .map(|(run, _)| run.start)
            .chain(std::iter::once(outer.end));
        starts.zip(ends).map(|(start, end)| start..end).filter(|gap| gap.start < gap.end)
    }

    /// The runs that share a key with the range, whole, ascending.
    pub fn overlapping(&self, range: Range<K>) -> impl Iterator<Item = (&Range<K>, &V)> {
        let from = self.runs.partition_point(|(run, _)| run.end <= range.start);
        let to = self.runs.partition_point(|(run, _)| run.start < range.end);
        // An empty range lies in no run, even where one surrounds it.
        let to = if range.start < range.end { to } else { from };
        self.runs[from..to].iter().map(|(run, value)| (run, value))
    }

    /// The run that holds this key.
    pub fn get_key_value(&self, key: &K) -> Option<(&Range<K>, &V)> {
        let after = self.runs.partition_point(|(run, _)| run.start <= *key);
        let (run, value) = self.runs.get(after.checked_sub(1)?)?;
        run.contains(key).then_some((run, value))
    }

    /// Makes one run of the run at `at` and the one before it, where both exist, touch and agree.
    fn join(&mut self, at: usize) {
        if at == 0 || at >= self.runs.len() {
            return;
        }
        let (left, right) = (&self.runs[at - 1], &self.runs[at]);
        if left.0.end == right.0.start && left.1 == right.1 {
            self.runs[at - 1].0.end = right.0.end;
            self.runs.remove(at);
        }
    }
}

#[cfg(test)]
mod tests {
    use super::*;

    const KEYS: usize = 7;
    type Plain = [Option<u8>; KEYS];

    fn built(plain: &Plain) -> RangeMap<usize, u8> {
        let mut map = RangeMap::new();
        for (key, value) in plain.iter().enumerate() {
            if let Some(value) = value {
                map.insert(key..key + 1, *value);
            }
        }
        map
    }

    /// The stretches of equal entries in a range, cut to it.
    fn stretches(plain: &Plain, range: Range<usize>) -> Vec<(Range<usize>, Option<u8>)> {
        let mut out: Vec<(Range<usize>, Option<u8>)> = Vec::new();
        for key in range {
            match out.last_mut() {
                Some((run, value)) if *value == plain[key] => run.end = key + 1,
                _ => out.push((key..key + 1, plain[key])),
            }
        }
        out
    }

    fn every_plain() -> impl Iterator<Item = Plain> {
        (0..3usize.pow(KEYS as u32)).map(|mut n| {
            std::array::from_fn(|_| {
                let digit = n % 3;
                n /= 3;
                [None, Some(1), Some(2)][digit]
            })
        })
    }

    fn same(map: &RangeMap<usize, u8>, plain: &Plain) {
        let runs: Vec<_> = stretches(plain, 0..KEYS)
            .into_iter()
            .filter_map(|(run, value)| Some((run, value?)))
            .collect();
        assert_eq!(map.runs, runs);
    }

    #[test]
    fn every_edit_of_every_small_map() {
        for plain in every_plain() {
            let map = built(&plain);
            same(&map, &plain);
            for start in 0..KEYS {
                for end in start + 1..=KEYS {
                    for value in [None, Some(1), Some(2)] {
                        let (mut map, mut plain) = (map.clone(), plain);
                        plain[start..end].fill(value);
                        match value {
                            Some(value) => map.insert(start..end, value),
                            None => map.remove(start..end),
                        }
                        same(&map, &plain);
                    }
                }
            }
        }
    }

    #[test]
    fn every_question_to_every_small_map() {
        for plain in every_plain() {
            let map = built(&plain);
            for key in 0..KEYS {
                assert_eq!(map.get_key_value(&key).map(|(_, value)| *value), plain[key]);
            }
            for start in 0..KEYS {
                for end in start..=KEYS {
                    let (gaps, runs): (Vec<_>, Vec<_>) =
                        stretches(&plain, start..end).into_iter().partition(|s| s.1.is_none());
                    let gaps: Vec<_> = gaps.into_iter().map(|s| s.0).collect();
                    assert_eq!(map.gaps(&(start..end)).collect::<Vec<_>>(), gaps);
                    let cut: Vec<_> = map
                        .overlapping(start..end)
                        .map(|(run, value)| (run.start.max(start)..run.end.min(end), Some(*value)))
                        .collect();
                    assert_eq!(cut, runs);
                }
            }
        }
    }
}
