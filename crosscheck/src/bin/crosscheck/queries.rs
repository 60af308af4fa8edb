//! Queries for an image: present, absent, too long, cut within a label, or with foreign labels.

use crate::keysets::{EDGE_LABELS, NO_SCALARS};
use crosscheck::common::{query_of, KEY_LABELS};
use crosscheck::image::Image;
use crosscheck::keylist::Key;
use crosscheck::random::Random;

/// The bytes of a query of a random kind.
pub fn any_query(random: &mut Random, image: &Image, keys: &[Key]) -> Vec<u8> {
    let mut labels = any_labels(random, image, keys);
    if random.one_in(12) {
        let lengths: Vec<usize> = (KEY_LABELS - 1..=KEY_LABELS + 2).chain([200]).collect();
        let length = random.pick(&lengths);
        while labels.len() < length {
            labels.push(any_label(random, image));
        }
        labels.truncate(length);
    }
    let mut query = query_of(&labels);
    if random.one_in(25) {
        match random.below(2) {
            0 => query.extend(&[0; 3][..random.between(1, 3)]),
            _ => query.truncate(query.len().saturating_sub(random.between(1, 3))),
        }
    }
    query
}

fn any_labels(random: &mut Random, image: &Image, keys: &[Key]) -> Vec<u32> {
    let mut labels = match keys {
        [] => Vec::new(),
        keys => keys[random.below(keys.len())].clone(),
    };
    match random.below(8) {
        0 | 1 => {}
        2 => labels.truncate(random.below(labels.len() + 1)),
        3 => labels.extend((0..random.between(1, 3)).map(|_| any_label(random, image))),
        4 if !labels.is_empty() => {
            let at = random.below(labels.len());
            labels[at] = any_label(random, image);
        }
        5 => labels = (0..random.below(5)).map(|_| any_label(random, image)).collect(),
        6 => labels = Vec::new(),
        _ => {
            let long = [0, 1, 2, 6].map(|past| KEY_LABELS + past);
            let length = random.pick(&[[1, 2, 3, 5], long].concat());
            labels = walk(random, image, length);
        }
    }
    labels
}

/// A label that is mostly listed.
pub fn any_label(random: &mut Random, image: &Image) -> u32 {
    match random.below(8) {
        0 => random.pick(&EDGE_LABELS),
        1 => random.pick(&NO_SCALARS),
        2 => random.below(0x3100) as u32,
        _ if image.map.is_empty() => 0,
        _ => random.pick(&image.map.labels),
    }
}

/// Labels that follow steps of the image while there are any.
pub fn walk(random: &mut Random, image: &Image, length: usize) -> Vec<u32> {
    let mut slot = 1;
    let mut labels = Vec::new();
    for _ in 0..length {
        let steps = steps_from(random, image, slot);
        if steps.is_empty() || random.one_in(100) {
            labels.push(any_label(random, image));
            continue;
        }
        let code = random.pick(&steps);
        slot = image.node(slot).low_base() ^ code;
        labels.push(image.map.label(code));
    }
    labels
}

/// Codes by which a step exists; only some of them if the map lists many labels.
pub fn steps_from(random: &mut Random, image: &Image, slot: u32) -> Vec<u32> {
    let (codes, base) = (image.map.len() as u32, image.node(slot).low_base());
    let step = |code: &u32| {
        image.nodes.get((base ^ code) as usize).is_some_and(|node| node.parent() == slot)
    };
    if codes <= 64 {
        return (1..=codes).filter(step).collect();
    }
    (0..64).map(|_| random.between(1, codes as usize) as u32).filter(step).collect()
}
