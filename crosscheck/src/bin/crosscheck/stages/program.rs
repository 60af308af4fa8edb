//! Runs of the listing program over key lists, well-formed and not.

use super::bad_lists::random_faults;
use crate::call::Call;
use crate::comparison::Comparison;
use crate::keysets::{self, one_label_each, EDGE_LABELS, NO_SCALARS};
use crosscheck::common::KEY_LABELS;
use crosscheck::keylist::{to_bytes, Key};
use crosscheck::listing::{INPUT_LEN, WORK_WORDS};
use crosscheck::random::Random;

pub fn run(comparison: &mut Comparison, random: &mut Random, amount: usize) {
    for input in fixed_inputs(random) {
        comparison.call(Call::List { input: &input });
    }
    for _ in 0..1_200 * amount {
        let keys = keysets::small(random);
        let input = if keys.is_empty() || random.one_in(2) {
            to_bytes(&keys)
        } else {
            random_faults(random, &keys)
        };
        comparison.call(Call::List { input: &input });
    }
}

/// Inputs of each form that a rule of the listing program needs at least once.
fn fixed_inputs(random: &mut Random) -> Vec<Vec<u8>> {
    let edges: Vec<Key> = EDGE_LABELS.iter().map(|label| vec![*label, 0, *label]).collect();
    let equal = vec![vec![1], vec![1]];
    // The most keys at the limit for which there are slots, besides slots 0 and 1: one for each
    // label and one for the end. With one key more no base fits.
    let most = (WORK_WORDS / 2 - 2) / (KEY_LABELS + 1);
    let long: Vec<Key> = (1..).take(most + 1).map(|label| vec![label; KEY_LABELS]).collect();
    assert!(to_bytes(&long).len() <= INPUT_LEN);
    let wide = keysets::wide(random);
    let mut inputs: Vec<Vec<u8>> = vec![
        to_bytes(&edges),
        to_bytes(&equal),
        to_bytes(&[vec![9; KEY_LABELS]]),
        to_bytes(&[vec![9; KEY_LABELS + 1]]),
        to_bytes(&[vec![NO_SCALARS[0]]]),
        to_bytes(&wide),
        // These have slots, but need too much output.
        to_bytes(&long[..most]),
        to_bytes(&long),
        Vec::new(),
        vec![1, 0, 0, 0x80, 1],
        vec![2, 0, 0, 0, 0],
    ];
    // 1,818 keys of one label still fit into the output, and 4,096 have a label too many.
    let counts = [1_000, 1_818, 1_819, 4_095, 4_096, 6_552];
    inputs.extend(counts.map(|keys| to_bytes(&one_label_each(keys))));
    inputs.extend([80_000, 40_000, INPUT_LEN + 1, INPUT_LEN, INPUT_LEN - 1].map(list_of_length));
    inputs.push(vec![0; INPUT_LEN + 1]);
    inputs.push([&list_of_length(INPUT_LEN)[..], &[0]].concat());
    inputs
}

/// A well-formed list of exactly `length` bytes, whose keys share long fronts. A
/// key has one byte and four for each label, so the remainder fixes their number.
fn list_of_length(length: usize) -> Vec<u8> {
    let bytes = length - 5;
    let fits = |count: &usize| bytes - count <= 4 * (KEY_LABELS - 2) * count;
    let count = (bytes % 4..).step_by(4).find(fits).expect("more keys always fit");
    let labels = (bytes - count) / 4;
    let key = |at: usize| {
        let front = labels / count - 2 + usize::from(at < labels % count);
        let mut key = vec![0x3042; front];
        key.extend([0x3100 + at as u32 / 100, 0x3100 + at as u32 % 100]);
        key
    };
    let mut keys: Vec<Key> = (0..count).map(key).collect();
    keys.sort();
    let list = to_bytes(&keys);
    assert_eq!(list.len(), length);
    list
}
