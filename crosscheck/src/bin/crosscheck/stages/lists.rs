//! Well-formed key lists: built with much and little memory, then explored.

use crate::call::Call;
use crate::comparison::Comparison;
use crate::explore::explore;
use crate::keysets;
use crosscheck::builder::image_of;
use crosscheck::keylist::{to_bytes, Key};
use crosscheck::random::Random;
use crosscheck::rules::Rules;

pub fn run(comparison: &mut Comparison, random: &mut Random, amount: usize) {
    for round in 0..600 * amount {
        let keys = match round % 100 {
            33 => keysets::wide(random),
            66 => keysets::all_prefixes(random),
            99 => middling(random),
            _ => keysets::small(random),
        };
        built_and_explored(comparison, random, &keys, 12);
    }
}

/// Several hundred keys.
fn middling(random: &mut Random) -> Vec<Key> {
    let alphabet = keysets::alphabet(random);
    let count = random.between(200, 900);
    keysets::keys_over(random, &alphabet, count, 6)
}

/// Builds a list at the borders of work and output, and explores its image.
pub fn built_and_explored(
    comparison: &mut Comparison,
    random: &mut Random,
    keys: &[Key],
    queries: usize,
) {
    let list = to_bytes(keys);
    let Ok(image) = image_of(Rules::DOCUMENT, &list, 131_072) else {
        comparison.call(Call::Build { keys: &list, work: 131_072, out: 0 });
        return;
    };
    let (slots, length) = (image.nodes.len(), image.to_bytes().len());
    let sizes = [
        (4 * slots + random.below(9), length + random.below(60)),
        (2 * slots, length),
        (2 * slots + 1, length - 1),
        (2 * slots - 1, length + 99),
        (2 * slots - 2, length),
        (2 * slots - random.below(slots), length + 1),
        (random.below(9), random.below(length)),
        (3 * slots, random.below(length)),
    ];
    for (work, out) in sizes {
        comparison.call(Call::Build { keys: &list, work, out });
    }
    if random.one_in(40) {
        let work = 131_072 + random.below(3);
        comparison.call(Call::Build { keys: &list, work, out: length + 5 });
    }
    explore(comparison, random, &image, keys, queries);
}
