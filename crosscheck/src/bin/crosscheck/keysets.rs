//! Random sets of keys of many kinds, in ascending order, each key once.

use crosscheck::common::KEY_LABELS;
use crosscheck::keylist::Key;
use crosscheck::random::Random;
use std::collections::BTreeSet;

/// Labels at the edges of the scalar values and of their encodings.
pub const EDGE_LABELS: [u32; 11] =
    [0, 1, 0x7F, 0xFF, 0x100, 0xD7FF, 0xE000, 0xFFFF, 0x1_0000, 0x10_0000, 0x10_FFFF];
/// Numbers that are not scalar values.
pub const NO_SCALARS: [u32; 6] = [0xD800, 0xDABC, 0xDFFF, 0x11_0000, 0x8000_0061, 0xFFFF_FFFF];

/// An alphabet of one of several kinds.
pub fn alphabet(random: &mut Random) -> Vec<u32> {
    match random.below(8) {
        0 => "aiueoknstmyr".chars().map(u32::from).collect(),
        1 => (0x3041..=0x3096).collect(),
        2 => (0..=255).collect(),
        3 => (0..40).map(|_| 0x1_0000 + random.below(0x10_0000) as u32).collect(),
        4 => EDGE_LABELS.to_vec(),
        5 => vec![0x61, 0x62],
        6 => vec![0x6E],
        _ => (0x30A1..0x30A6).chain([0, 0x1F600]).collect(),
    }
}

/// Up to `count` keys over an alphabet; half of them extend the front of an earlier key.
pub fn keys_over(random: &mut Random, alphabet: &[u32], count: usize, longest: usize) -> Vec<Key> {
    let mut keys: Vec<Key> = Vec::new();
    for _ in 0..count {
        let mut key = match random.below(keys.len() + 1) {
            at if at < keys.len() && random.one_in(2) => {
                let front = random.below(keys[at].len() + 1);
                keys[at][..front].to_vec()
            }
            _ => Key::new(),
        };
        for _ in 0..random.below(longest + 1) {
            key.push(random.pick(alphabet));
        }
        key.truncate(KEY_LABELS);
        keys.push(key);
    }
    let once: BTreeSet<Key> = keys.into_iter().collect();
    once.into_iter().collect()
}

/// A small set of any kind.
pub fn small(random: &mut Random) -> Vec<Key> {
    let alphabet = alphabet(random);
    let count = random.pick(&[0, 1, 1, 2, 3, 4, 6, 9, 14, 25]);
    let longest = random.pick(&[1, 2, 3, 4, 7, KEY_LABELS]);
    keys_over(random, &alphabet, count, longest)
}

/// Every prefix of one key at the limit, the empty one too.
pub fn all_prefixes(random: &mut Random) -> Vec<Key> {
    let alphabet = alphabet(random);
    let key: Key = (0..KEY_LABELS).map(|_| random.pick(&alphabet)).collect();
    (0..=KEY_LABELS).map(|length| key[..length].to_vec()).collect()
}

/// More than 255 children under one slot, some with children of their own.
pub fn wide(random: &mut Random) -> Vec<Key> {
    let front: Key = vec![0x3042; random.below(3)];
    let mut keys = BTreeSet::new();
    for label in 0x4E00..0x4E00 + random.between(256, 400) as u32 {
        let mut key = front.clone();
        key.push(label);
        keys.insert(key.clone());
        if random.one_in(20) {
            key.push(0x4E00 + random.below(400) as u32);
            keys.insert(key);
        }
    }
    keys.into_iter().collect()
}

/// `count` keys of one label each.
pub fn one_label_each(count: u32) -> Vec<Key> {
    (0..count).map(|label| vec![0x1_0000 + label]).collect()
}

/// Every string over `alphabet`, which ascends, of exactly `length` labels.
pub fn all_strings(alphabet: &[u32], length: usize) -> Vec<Key> {
    let mut keys = vec![Key::new()];
    for _ in 0..length {
        let longer = |key: &Key| {
            let key = key.clone();
            alphabet.iter().map(move |label| [key.as_slice(), &[*label]].concat())
        };
        keys = keys.iter().flat_map(longer).collect();
    }
    keys
}
