//! The examples of document 01 and of request 2 of document 02, and the sizes
//! around them.

use crate::call::Call;
use crate::comparison::Comparison;
use crate::explore::{complete_at_every_size, search, search_all_prefixes};
use crosscheck::answers::PLACE_WORDS;
use crosscheck::builder::image_of;
use crosscheck::common::query_of;
use crosscheck::image::{CodeMap, Image, Lists, Node};
use crosscheck::keylist::{to_bytes, Key};
use crosscheck::rules::Rules;

pub fn run(comparison: &mut Comparison) {
    let lists = [
        vec![],
        vec![vec![]],
        n_na(),
        vec![vec![0x61], vec![0x62], vec![0x62, 0x62]],
        vec![vec![0x61, 0x61], vec![0x62], vec![0x62, 0x63]],
        vec![vec![0x61], vec![0x62, 0x62]],
    ];
    for keys in &lists {
        example(comparison, keys);
    }
    changed_examples(comparison);
}

pub fn n_na() -> Vec<Key> {
    vec![vec![0x6E], vec![0x6E, 0x61]]
}

pub fn built(keys: &[Key]) -> Image {
    image_of(Rules::DOCUMENT, &to_bytes(keys), 64).expect("the example builds")
}

fn example(comparison: &mut Comparison, keys: &[Key]) {
    let (list, image) = (to_bytes(keys), built(keys).to_bytes());
    comparison.call(Call::List { input: &list });
    for work in 0..24 {
        for out in [0, image.len() - 1, image.len(), image.len() + 10] {
            comparison.call(Call::Build { keys: &list, work, out });
        }
    }
    comparison.image(&image);
    search_all_prefixes(comparison, &image, keys);
    for labels in [vec![0x61], vec![0x78], vec![0x6E, 0x61, 0x6E], vec![0x6E, 0], vec![0xD800]] {
        search(comparison, &image, &query_of(&labels), PLACE_WORDS + 1);
        complete_at_every_size(comparison, &image, &query_of(&labels));
    }
    complete_at_every_size(comparison, &image, &[]);
    for cut in 1..12 {
        search(comparison, &image, &query_of(&[0x6E, 0x61, 0x6E])[..cut], PLACE_WORDS);
        comparison.call(Call::Complete { image: &image, prefix: &[0; 12][..cut], room: cut });
    }
}

/// P7 to P10: refusals 11, 10, 10, 9 and 12.
pub fn changed() -> Vec<Image> {
    let mut images = vec![built(&n_na()); 5];
    images[0].lists.children = vec![3, 4, 4, 2];
    images[1].nodes[3].check = 1;
    images[2].nodes[5].base = 7;
    images[3].map = CodeMap::new(Rules::DOCUMENT, vec![0x6E, 0x6E]);
    images[4] = Image {
        nodes: [(0, 0), (0, 0), (2, 3), (3, 2)].map(|(base, check)| Node { base, check }).to_vec(),
        lists: Lists { offsets: vec![0, 0, 0, 1, 2], children: vec![3, 2] },
        map: CodeMap::new(Rules::DOCUMENT, vec![0x61]),
    };
    images
}

fn changed_examples(comparison: &mut Comparison) {
    for image in changed().iter().map(Image::to_bytes) {
        comparison.image(&image);
        for room in [0, 4, 5, 100] {
            comparison.call(Call::Complete { image: &image, prefix: &[], room });
        }
        for labels in [&[][..], &[0x6E], &[0x6E, 0x61], &[0x61], &[0x61, 0x61]] {
            search(comparison, &image, &query_of(labels), PLACE_WORDS);
        }
    }
}
