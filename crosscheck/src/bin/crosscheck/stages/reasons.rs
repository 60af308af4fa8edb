//! Why words are missing, request 5 of document 02: every short text over the
//! examples P1 to P3 and P7 to P10 of document 01, over images with cycles and over
//! images with HAS_LEAF where no leaf is; texts around the limit of a key; and refusals.

use super::examples::{built, changed, n_na};
use super::position_examples::cycles;
use crate::call::Call;
use crate::comparison::Comparison;
use crate::explore::search;
use crate::keysets::all_strings;
use crosscheck::answers::PLACE_WORDS;
use crosscheck::builder::image_of;
use crosscheck::common::{query_of, KEY_LABELS};
use crosscheck::image::{Image, TOP_BIT};
use crosscheck::keylist::{to_bytes, Key};
use crosscheck::rules::Rules;

const A: u32 = 0x61;
const N: u32 = 0x6E;
/// Listed by none of the images.
const X: u32 = 0x78;

pub fn run(comparison: &mut Comparison) {
    let mut images = vec![built(&[]), built(&[vec![]]), built(&n_na())];
    images.extend(changed());
    images.extend(cycles());
    images.extend(flags_without_leaf());
    images.push(key_at_the_limit());
    for image in images.iter().map(Image::to_bytes) {
        comparison.image(&image);
        every_short_text(comparison, &image);
        around_the_limit(comparison, &image);
        refused(comparison, &image);
    }
}

/// HAS_LEAF where the base leads to the end of another slot, to a slot that is no leaf, and past N.
fn flags_without_leaf() -> Vec<Image> {
    let mut images = vec![built(&n_na()); 3];
    images[0].nodes[1].check |= TOP_BIT;
    images[1].nodes[4].base = 0;
    images[2].nodes[6].base = 0x1_0000;
    images
}

fn key_at_the_limit() -> Image {
    let key: Key = [N, A].into_iter().cycle().take(KEY_LABELS).collect();
    image_of(Rules::DOCUMENT, &to_bytes(&[key]), 400).expect("a key at the limit builds")
}

fn every_short_text(comparison: &mut Comparison, image: &[u8]) {
    for labels in (0..=3).flat_map(|length| all_strings(&[A, N, X], length)) {
        search(comparison, image, &query_of(&labels), PLACE_WORDS);
    }
}

/// Texts of A and N, with X at no, one or two places.
fn around_the_limit(comparison: &mut Comparison, image: &[u8]) {
    for length in KEY_LABELS - 1..=KEY_LABELS + 2 {
        for front in [[A, A], [N, N], [N, A]] {
            let listed: Key = front.into_iter().cycle().take(length).collect();
            search(comparison, image, &query_of(&listed), PLACE_WORDS);
            for places in [[0, 0], [1, length - 1], [length - 2, length - 1]] {
                let mut labels = listed.clone();
                places.iter().for_each(|place| labels[*place] = X);
                comparison.call(Call::Why { image, query: &query_of(&labels) });
            }
        }
    }
}

/// Queries cut within a label, and an image with a byte too many.
fn refused(comparison: &mut Comparison, image: &[u8]) {
    let longer = [image, &[0]].concat();
    for labels in [1, 2, KEY_LABELS, KEY_LABELS + 1, KEY_LABELS + 2] {
        let query = query_of(&vec![N; labels]);
        for cut in 0..4 {
            for image in [image, &longer] {
                comparison.call(Call::Why { image, query: &query[cut..] });
            }
        }
    }
}
