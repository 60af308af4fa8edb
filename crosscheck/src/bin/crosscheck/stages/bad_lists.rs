//! Malformed key lists: each of 15 to 19 and 21 in each form, and two faults at once.

use crate::call::Call;
use crate::comparison::Comparison;
use crate::keysets::{self, NO_SCALARS};
use crosscheck::common::KEY_LABELS;
use crosscheck::keylist::{to_bytes, Key};
use crosscheck::random::Random;

/// Work and output that are enough for every list here.
const ENOUGH: (usize, usize) = (4_000, 40_000);

pub fn run(comparison: &mut Comparison, random: &mut Random, amount: usize) {
    for round in 0..60 * amount {
        let keys = if round == 0 { vec![vec![1], vec![1, 2], vec![3]] } else { some_keys(random) };
        every_cut(comparison, &keys);
        bytes_of_the_head(comparison, random, &keys);
        for at in [0, keys.len() / 2, keys.len() - 1] {
            bad_keys(comparison, random, &keys, at);
        }
        for _ in 0..60 {
            let list = random_faults(random, &keys);
            build(comparison, random, &list);
        }
    }
}

fn some_keys(random: &mut Random) -> Vec<Key> {
    loop {
        let alphabet = keysets::alphabet(random);
        let count = random.between(1, 6);
        let keys = keysets::keys_over(random, &alphabet, count, 4);
        if !keys.is_empty() {
            return keys;
        }
    }
}

/// Builds with enough memory and, now and then, with too little of it as well.
fn build(comparison: &mut Comparison, random: &mut Random, list: &[u8]) {
    let (work, out) = ENOUGH;
    comparison.call(Call::Build { keys: list, work, out });
    if random.one_in(4) {
        comparison.call(Call::Build { keys: list, work: random.below(9), out: random.below(60) });
    }
}

fn every_cut(comparison: &mut Comparison, keys: &[Key]) {
    let list = to_bytes(keys);
    let (work, out) = (64, 400);
    for length in 0..=list.len() {
        comparison.call(Call::Build { keys: &list[..length], work, out });
    }
    for work in 0..=8 {
        comparison.call(Call::Build { keys: &list[..list.len() - 1], work, out });
        comparison.call(Call::Build { keys: &list, work, out });
    }
}

/// Version, count and bytes left over.
fn bytes_of_the_head(comparison: &mut Comparison, random: &mut Random, keys: &[Key]) {
    let list = to_bytes(keys);
    for version in [0, 2, 3, 0xFF] {
        let mut other = list.clone();
        other[0] = version;
        build(comparison, random, &other);
    }
    let count = keys.len() as u32;
    for count in [0, count - 1, count + 1, 0x0100_0000, 32_767, 32_768, 32_769, 65_536, u32::MAX] {
        let mut other = list.clone();
        other[1..5].copy_from_slice(&count.to_be_bytes());
        build(comparison, random, &other);
    }
    for left_over in [&[0][..], &[1, 2, 3, 4], &[0; 7]] {
        build(comparison, random, &[&list, left_over].concat());
    }
}

/// The key at one place in every wrong form.
fn bad_keys(comparison: &mut Comparison, random: &mut Random, keys: &[Key], at: usize) {
    let mut lists: Vec<Vec<Key>> = Vec::new();
    let mut with = |key: Key| {
        let mut other = keys.to_vec();
        other[at] = key;
        lists.push(other);
    };
    for length in (KEY_LABELS - 1..=KEY_LABELS + 2).chain([255]) {
        with(vec![keys[at].first().copied().unwrap_or(7); length]);
    }
    for label in NO_SCALARS.into_iter().chain([0xD7FF, 0xE000, 0x10_FFFF]) {
        with([keys[at].as_slice(), &[label]].concat());
        with([&[label], keys[at].as_slice()].concat());
        with(vec![label; KEY_LABELS + 1]);
    }
    let insert = |key: Key| {
        let mut other = keys.to_vec();
        other.insert(at + 1, key);
        other
    };
    lists.push(insert(keys[at].clone()));
    lists.push(insert(keys[at][..keys[at].len().saturating_sub(1)].to_vec()));
    lists.push(insert(Key::new()));
    let mut swapped = keys.to_vec();
    swapped.swap(at, (at + 1) % keys.len());
    lists.push(swapped);
    for list in &lists {
        build(comparison, random, &to_bytes(list));
    }
    lengths_alone(comparison, random, keys, at);
}

/// A length byte changed without the labels it counts.
fn lengths_alone(comparison: &mut Comparison, random: &mut Random, keys: &[Key], at: usize) {
    let place = to_bytes(&keys[..at]).len();
    for length in [0, 1, 2, 3, 5, KEY_LABELS - 1, KEY_LABELS, KEY_LABELS + 1, 128, 255] {
        let mut list = to_bytes(keys);
        list[place] = length as u8;
        build(comparison, random, &list);
    }
}

/// A list with up to three faults of any kind; `keys` is not empty.
pub fn random_faults(random: &mut Random, keys: &[Key]) -> Vec<u8> {
    let mut keys = keys.to_vec();
    for _ in 0..random.below(3) {
        key_fault(random, &mut keys);
    }
    let mut list = to_bytes(&keys);
    match random.below(5) {
        0 => list.truncate(random.below(list.len() + 1)),
        1 => list.extend(&[1, 0, 0, 0, 9][..random.below(6)]),
        2 => {
            let at = random.below(list.len());
            list[at] = random.pick(&[0, 1, 2, KEY_LABELS, KEY_LABELS + 1, 0x80, 0xD8, 0xFF]) as u8;
        }
        3 => list[4] = list[4].wrapping_add(random.pick(&[1, 0xFF])),
        _ => {}
    }
    list
}

fn key_fault(random: &mut Random, keys: &mut Vec<Key>) {
    let at = random.below(keys.len());
    match random.below(5) {
        0 => keys[at].push(random.pick(&NO_SCALARS)),
        1 => keys[at].resize(random.pick(&[KEY_LABELS, KEY_LABELS + 1, KEY_LABELS + 6]), 5),
        2 => keys.insert(at, keys[at].clone()),
        3 => keys.reverse(),
        _ if keys[at].is_empty() => keys[at].push(0xDC00),
        _ => keys[at][0] = random.pick(&NO_SCALARS),
    }
}
