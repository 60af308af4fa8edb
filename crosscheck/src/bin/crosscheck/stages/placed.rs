//! Images from the second placer: other slots, codes, values and spare slots for
//! the same sets; chains at the depth limit; cycles and slots moved to other
//! parents.

use crate::call::Call;
use crate::comparison::Comparison;
use crate::explore::{any_search, any_typing, explore, search};
use crate::keysets;
use crate::placer::{add_ring, any_code_order, place, rehang, with_values, Pairs};
use crate::queries::any_query;
use crosscheck::answers::PLACE_WORDS;
use crosscheck::common::{query_of, KEY_LABELS};
use crosscheck::image::Image;
use crosscheck::keylist::Key;
use crosscheck::random::Random;

pub fn run(comparison: &mut Comparison, random: &mut Random, amount: usize) {
    for _ in 0..500 * amount {
        let keys = keysets::small(random);
        same_set_elsewhere(comparison, random, &keys);
    }
    let near = KEY_LABELS - 1..=KEY_LABELS + 3;
    for length in [KEY_LABELS - 4].into_iter().chain(near).chain([100, 200]) {
        for _ in 0..6 * amount {
            chain(comparison, random, length);
        }
    }
    for _ in 0..1_500 * amount {
        rings(comparison, random);
        rehung(comparison, random);
    }
}

/// A random image of a random set of small keys, with those keys.
pub fn any_placed(random: &mut Random) -> (Image, Vec<Key>) {
    let keys = keysets::small(random);
    let pairs = with_values(random, &keys);
    (placed(random, &pairs), keys)
}

pub fn placed(random: &mut Random, pairs: &Pairs) -> Image {
    let labels = any_code_order(random, pairs);
    let spare = random.pick(&[0, 0, 1, 2, 7]);
    place(random, pairs, labels, spare)
}

/// Every image of the set must be accepted, with all its pairs.
fn same_set_elsewhere(comparison: &mut Comparison, random: &mut Random, keys: &[Key]) {
    let pairs = with_values(random, keys);
    for _ in 0..2 {
        let image = placed(random, &pairs);
        let bytes = image.to_bytes();
        let answer = comparison.check(&bytes);
        comparison
            .require(answer == pairs.len() as u64, "a placed image has another number of pairs");
        for (key, value) in pairs.iter().take(5) {
            let answer = comparison.call(Call::Exact { image: &bytes, query: &query_of(key) });
            let found = answer == (1 << 32) + u64::from(*value);
            comparison.require(found, "a placed key has another value");
        }
        explore(comparison, random, &image, keys, 4);
    }
}

/// One key of a length near the limit, with some of its prefixes; searched at many lengths.
fn chain(comparison: &mut Comparison, random: &mut Random, length: usize) {
    let alphabet = keysets::alphabet(random);
    let key: Key = (0..length).map(|_| random.pick(&alphabet)).collect();
    let mut keys = vec![key.clone()];
    for front in [0, 1].into_iter().chain(KEY_LABELS - 2..=KEY_LABELS + 1) {
        if front < length && random.one_in(2) {
            keys.push(key[..front].to_vec());
        }
    }
    let pairs = with_values(random, &keys);
    let image = placed(random, &pairs);
    let bytes = image.to_bytes();
    comparison.image(&bytes);
    for front in [0, 1].into_iter().chain(KEY_LABELS - 2..=KEY_LABELS + 2).chain([length]) {
        let query = query_of(&key[..front.min(length)]);
        search(comparison, &bytes, &query, PLACE_WORDS + 5);
        search(comparison, &bytes, &[query.as_slice(), &[0, 0, 0, 1]].concat(), PLACE_WORDS);
        comparison.call(Call::Complete { image: &bytes, prefix: &query, room: 5 + 5 + 4 * length });
    }
}

/// A valid image with a ring of slots beside it.
fn rings(comparison: &mut Comparison, random: &mut Random) {
    let (mut image, keys) = any_placed(random);
    if image.map.is_empty() {
        return;
    }
    let length = random.pick(&[1, 1, 2, 2, 3, 5, KEY_LABELS, KEY_LABELS + 1, KEY_LABELS + 2]);
    add_ring(random, &mut image, length);
    look_at(comparison, random, &image, &keys);
}

fn rehung(comparison: &mut Comparison, random: &mut Random) {
    let (mut image, keys) = any_placed(random);
    for _ in 0..random.between(1, 2) {
        rehang(random, &mut image);
    }
    look_at(comparison, random, &image, &keys);
}

/// Checks an image of any kind, and walks it, lists it and types with it once.
fn look_at(comparison: &mut Comparison, random: &mut Random, image: &Image, keys: &[Key]) {
    let (bytes, query) = (image.to_bytes(), any_query(random, image, keys));
    comparison.image(&bytes);
    any_search(comparison, random, &bytes, &query);
    let room = random.pick(&[3, 5, 60, 2_000]);
    comparison.call(Call::Complete { image: &bytes, prefix: &query, room });
    any_typing(comparison, random, &bytes);
}
