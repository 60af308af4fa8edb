//! Generated hiragana readings. They resemble the readings of a dictionary in
//! their length, in how unevenly labels occur, and in how many prefixes they
//! share.

use crate::random::Random;
use crosscheck::keylist::Key;
use std::collections::HashSet;

const SHORTEST: usize = 2;
const LONGEST: usize = 9;

/// Kana that begin a syllable, by falling frequency.
const KANA: &str = "しかこきさたせいあけとじちはおそまがなみうてひすふだもめやえどよらばわに\
                    ろげごぎのるりれぶほつむねくびざぼゆずぜぐぞへでべぱぽづぷぴぬぺぢを";
/// Kana that may be followed by one of the small ones.
const BEFORE_SMALL: &str = "しきじちりひにみぎびぴ";
const SMALL: &str = "ょゅゃ";
/// Kana that end a syllable, by falling frequency.
const ENDINGS: &str = "うんいくつきっりちーぇぁぃぉ";

pub struct Readings {
    random: Random,
    kana: Key,
    before_small: Key,
    small: Key,
    endings: Key,
}

impl Readings {
    pub fn new(seed: u64) -> Readings {
        let labels = |text: &str| text.chars().map(u32::from).collect();
        Readings {
            random: Random::new(seed),
            kana: labels(KANA),
            before_small: labels(BEFORE_SMALL),
            small: labels(SMALL),
            endings: labels(ENDINGS),
        }
    }

    /// `count` different readings in the order of a key list. With the same seed, a
    /// longer list has all readings of a shorter one.
    pub fn list(&mut self, count: usize) -> Vec<Key> {
        let (mut keys, mut known) = (Vec::new(), HashSet::new());
        while keys.len() < count {
            let reading = self.reading(&keys);
            if known.insert(reading.clone()) {
                keys.push(reading);
            }
        }
        keys.sort_unstable();
        keys
    }

    /// `count` readings that are not in `list`, which ascends.
    pub fn others(&mut self, count: usize, list: &[Key]) -> Vec<Key> {
        let mut others = Vec::new();
        while others.len() < count {
            let reading = self.reading(list);
            if list.binary_search(&reading).is_err() {
                others.push(reading);
            }
        }
        others
    }

    /// Two or three syllables, or a known reading with one syllable more.
    fn reading(&mut self, known: &[Key]) -> Key {
        loop {
            let goes_on = !known.is_empty() && self.random.one_in(4);
            let (mut reading, syllables) = match goes_on {
                true => (self.random.pick(known).clone(), 1),
                false => (Key::new(), if self.random.one_in(4) { 3 } else { 2 }),
            };
            (0..syllables).for_each(|_| self.add_syllable(&mut reading));
            if (SHORTEST..=LONGEST).contains(&reading.len()) {
                return reading;
            }
        }
    }

    fn add_syllable(&mut self, reading: &mut Key) {
        let first = self.random.pick_early(&self.kana, 2);
        reading.push(first);
        if self.before_small.contains(&first) && self.random.one_in(3) {
            reading.push(self.random.pick_early(&self.small, 2));
        }
        if self.random.one_in(2) {
            reading.push(self.random.pick_early(&self.endings, 4));
        }
    }
}

#[cfg(test)]
mod tests {
    use super::*;

    const SEED: u64 = 7;

    #[test]
    fn lists_ascend_and_keys_are_neither_short_nor_long() {
        let list = Readings::new(SEED).list(2_000);
        assert_eq!(list.len(), 2_000);
        assert!(list.windows(2).all(|pair| pair[0] < pair[1]));
        assert!(list.iter().all(|key| (SHORTEST..=LONGEST).contains(&key.len())));
    }

    #[test]
    fn a_seed_gives_one_list_and_longer_lists_hold_shorter_ones() {
        let list = Readings::new(SEED).list(500);
        assert_eq!(list, Readings::new(SEED).list(500));
        assert_ne!(list, Readings::new(SEED + 1).list(500));
        let longer = Readings::new(SEED).list(1_000);
        assert!(list.iter().all(|key| longer.binary_search(key).is_ok()));
    }

    #[test]
    fn others_are_not_in_the_list() {
        let list = Readings::new(SEED).list(1_000);
        let others = Readings::new(SEED + 1).others(1_000, &list);
        assert!(others.iter().all(|other| !list.contains(other)));
    }
}
