//! A few large key lists. Their number is small because first fit, base by base,
//! takes long over many slots.

use super::lists::built_and_explored;
use crate::call::Call;
use crate::comparison::Comparison;
use crate::explore::explore;
use crate::keysets::{all_strings, keys_over, one_label_each};
use crate::placer::{any_code_order, place, with_values};
use crosscheck::builder::image_of;
use crosscheck::common::KEY_LABELS;
use crosscheck::keylist::{to_bytes, Key};
use crosscheck::random::Random;
use crosscheck::rules::Rules;

pub fn run(comparison: &mut Comparison, random: &mut Random) {
    let kana: Vec<u32> = (0x3041..=0x3096).collect();
    let bytes: Vec<u32> = (0..=255).collect();
    let deep = keys_over(random, &kana[..20], 60, KEY_LABELS);
    let thousands = keys_over(random, &kana, 2_000, 5);
    let byte_keys = keys_over(random, &bytes, 1_500, 3);
    for keys in [deep, thousands, byte_keys, one_label_each(4_095)] {
        built_once(comparison, random, &keys, 30);
        placed_once(comparison, random, &keys);
    }
    let digits: Vec<u32> = (0x30..=0x39).collect();
    built_once(comparison, random, &all_strings(&digits, 4), 20);
    let tens_of_thousands = keys_over(random, &kana, 18_000, 4);
    built_once(comparison, random, &tens_of_thousands, 20);
    let few = keys_over(random, &kana, 300, 8);
    built_and_explored(comparison, random, &few, 60);
    full_table(comparison);
}

/// Nearly as many keys as the slots can hold, and as many as a list may have, for
/// which there are never enough slots: each key needs two of its own.
fn full_table(comparison: &mut Comparison) {
    let keys: Vec<Key> = (0..8)
        .flat_map(|first| (0..4_087).map(move |second| vec![first, 0x100 + second]))
        .collect();
    let mut more = keys.clone();
    more.extend((0..72).map(|second| vec![0, 0x100 + second, 0x100]));
    more.sort();
    for keys in [keys, more] {
        let list = to_bytes(&keys);
        comparison.call(Call::Build { keys: &list, work: 140_000, out: 1_200_000 });
        if let Ok(image) = image_of(Rules::DOCUMENT, &list, 140_000) {
            comparison.image(&image.to_bytes());
        }
    }
}

/// Builds with memory of exactly the needed size, and explores the image.
fn built_once(comparison: &mut Comparison, random: &mut Random, keys: &[Key], queries: usize) {
    let list = to_bytes(keys);
    let image = image_of(Rules::DOCUMENT, &list, 131_072).expect("the list builds");
    let (work, out) = (2 * image.nodes.len(), image.to_bytes().len());
    comparison.call(Call::Build { keys: &list, work, out });
    explore(comparison, random, &image, keys, queries);
}

fn placed_once(comparison: &mut Comparison, random: &mut Random, keys: &[Key]) {
    let pairs = with_values(random, keys);
    let labels = any_code_order(random, &pairs);
    if labels.len() <= 1_000 {
        let image = place(random, &pairs, labels, 9);
        explore(comparison, random, &image, keys, 20);
    }
}
