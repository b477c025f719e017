//! Named counters, each of which must be above zero at the end.

use std::collections::BTreeMap;
use std::fmt::Display;

pub struct Tally<K> {
    counts: BTreeMap<K, u64>,
}

impl<K: Ord + Display> Tally<K> {
    /// Counters for all that is expected, at zero.
    pub fn of(expected: impl IntoIterator<Item = K>) -> Tally<K> {
        Tally { counts: expected.into_iter().map(|key| (key, 0)).collect() }
    }

    /// Whether something is expected or has occurred.
    pub fn has(&self, key: &K) -> bool {
        self.counts.contains_key(key)
    }

    pub fn add(&mut self, key: K) {
        *self.counts.entry(key).or_default() += 1;
    }

    pub fn add_all(&mut self, keys: impl IntoIterator<Item = K>) {
        keys.into_iter().for_each(|key| self.add(key));
    }

    pub fn iter(&self) -> impl Iterator<Item = (&K, u64)> {
        self.counts.iter().map(|(key, count)| (key, *count))
    }

    /// What was expected and never occurred.
    pub fn missing(&self) -> impl Iterator<Item = String> {
        self.iter().filter(|(_, count)| *count == 0).map(|(key, _)| key.to_string())
    }

    /// A line for each counter.
    pub fn lines(&self) -> String {
        self.iter().map(|(key, count)| format!("  {count:8}  {key}\n")).collect()
    }
}

#[cfg(test)]
mod tests {
    use super::Tally;

    #[test]
    fn what_is_not_added_is_missing() {
        let mut tally = Tally::of(["one", "two"]);
        tally.add_all(["two", "two", "three"]);
        assert_eq!(tally.missing().collect::<Vec<_>>(), ["one"]);
        assert_eq!(tally.iter().collect::<Vec<_>>(), [(&"one", 0), (&"three", 1), (&"two", 2)]);
    }
}
