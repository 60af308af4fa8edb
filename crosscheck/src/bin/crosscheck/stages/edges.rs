//! Sizes at the limits of document 01: labels, keys, slots, work and sums.

use crate::call::Call;
use crate::comparison::Comparison;
use crate::explore::{complete_at_borders, search};
use crate::keysets::one_label_each;
use crate::placer::{place, with_values};
use crosscheck::answers::PLACE_WORDS;
use crosscheck::common::{query_of, KEY_LABELS};
use crosscheck::image::Image;
use crosscheck::keylist::{to_bytes, Key};
use crosscheck::random::Random;

pub fn run(comparison: &mut Comparison, random: &mut Random) {
    listed_labels(comparison, random);
    used_labels(comparison);
    key_counts(comparison);
    for slots in [65_535, 65_536, 65_537] {
        many_slots(comparison, random, slots);
    }
    edge_counts(comparison, random);
}

fn n_and_na() -> Vec<Key> {
    vec![vec![0x6E], vec![0x6E, 0x61]]
}

/// Code maps of 4,094 to 4,097 labels, nearly all of them unused.
fn listed_labels(comparison: &mut Comparison, random: &mut Random) {
    for listed in [4_094, 4_095, 4_096, 4_097] {
        let pairs = with_values(random, &n_and_na());
        let mut labels: Vec<u32> = (0x1_0000..).take(listed - 2).chain([0x6E, 0x61]).collect();
        random.shuffle(&mut labels);
        let image = place(random, &pairs, labels, 1).to_bytes();
        comparison.image(&image);
        search(comparison, &image, &query_of(&[0x6E, 0x61]), PLACE_WORDS);
        complete_at_borders(comparison, random, &image, &[]);
    }
}

/// Key lists with 4,094 to 4,096 distinct labels, with enough work and with too little.
fn used_labels(comparison: &mut Comparison) {
    for labels in [4_094, 4_095, 4_096] {
        let list = to_bytes(&one_label_each(labels));
        for (work, out) in [(16_384, 140_000), (16_383, 140_000), (40, 0), (16_384, 1_000), (3, 9)]
        {
            comparison.call(Call::Build { keys: &list, work, out });
        }
    }
    // The same in long keys: 4,096 labels are one too many, 4,095 are not.
    for labels in [4_096, 4_095] {
        let labels: Vec<u32> = (0x3_0000..).take(labels).collect();
        let keys: Vec<Key> = labels.chunks(KEY_LABELS).map(<[u32]>::to_vec).collect();
        comparison.call(Call::Build { keys: &to_bytes(&keys), work: 20_000, out: 200_000 });
    }
}

/// Lists of 32,767 to 32,769 keys; with work for few slots, the builder refuses them early.
fn key_counts(comparison: &mut Comparison) {
    for count in [32_767, 32_768, 32_769] {
        let keys: Vec<Key> = (0..count).map(|key| vec![key / 256, key % 256]).collect();
        for work in [3, 100] {
            comparison.call(Call::Build { keys: &to_bytes(&keys), work, out: 100 });
        }
    }
}

/// A small set in an image of very many slots, whole, cut, and with a fault far from its start.
fn many_slots(comparison: &mut Comparison, random: &mut Random, slots: usize) {
    let pairs = with_values(random, &n_and_na());
    let mut image = place(random, &pairs, vec![0x61, 0x6E], 0);
    image.nodes.resize(slots, Default::default());
    image.relist();
    let bytes = image.to_bytes();
    comparison.image(&bytes);
    search(comparison, &bytes, &query_of(&[0x6E, 0x61]), PLACE_WORDS);
    comparison.call(Call::Complete { image: &bytes, prefix: &[], room: 100 });
    comparison.check(&bytes[..bytes.len() - 1]);
    for slot in [slots / 2, slots - 1] {
        let mut spoilt = image.clone();
        spoilt.nodes[slot].base = 7;
        comparison.image(&spoilt.to_bytes());
        let mut spoilt = image.clone();
        spoilt.lists.offsets[slot] += 1;
        comparison.image(&spoilt.to_bytes());
    }
}

/// E at and past N-2, with a length that agrees.
fn edge_counts(comparison: &mut Comparison, random: &mut Random) {
    let pairs = with_values(random, &n_and_na());
    let image = place(random, &pairs, vec![0x61, 0x6E], 3);
    for edges in 0..image.nodes.len() + 2 {
        let mut other: Image = image.clone();
        other.lists.children.resize(edges, 2);
        if let Some(last) = other.lists.offsets.last_mut() {
            *last = edges as u32;
        }
        let bytes = other.to_bytes();
        comparison.image(&bytes);
        search(comparison, &bytes, &query_of(&[0x6E]), PLACE_WORDS);
        comparison.call(Call::Complete { image: &bytes, prefix: &[], room: 100 });
    }
}
