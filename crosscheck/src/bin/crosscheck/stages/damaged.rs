//! Damaged images, checked, walked, listed and typed with.

use super::placed::any_placed;
use crate::call::Call;
use crate::comparison::Comparison;
use crate::damage::damaged;
use crate::explore::{any_search, any_typing};
use crate::queries::any_query;
use crosscheck::builder::image_of;
use crosscheck::common::query_of;
use crosscheck::image::Image;
use crosscheck::keylist::{to_bytes, Key};
use crosscheck::random::Random;
use crosscheck::rules::Rules;

pub fn run(comparison: &mut Comparison, random: &mut Random, amount: usize) {
    for _ in 0..1_000 * amount {
        let (mut image, keys) = any_placed(random);
        if random.one_in(2) {
            image = image_of(Rules::DOCUMENT, &to_bytes(&keys), 16_384).expect("small sets build");
        }
        for _ in 0..30 {
            one(comparison, random, &image, &keys);
        }
    }
}

fn one(comparison: &mut Comparison, random: &mut Random, image: &Image, keys: &[Key]) {
    let bytes = damaged(random, image);
    comparison.image(&bytes);
    let query = any_query(random, image, keys);
    any_search(comparison, random, &bytes, &query);
    any_search(comparison, random, &bytes, &query);
    let first_label = query_of(&image.map.labels[..image.map.len().min(1)]);
    let prefix = random.pick(&[&query[..], &[], &first_label]);
    let room = random.pick(&[0, 4, 5, 14, 40, 3_000]);
    comparison.call(Call::Complete { image: &bytes, prefix, room });
    any_typing(comparison, random, &bytes);
}
