//! Typing positions: moves over images of every kind, around the limit of a key and
//! around the most labels that are counted; refused moves, moves over an image that
//! does not have the place, and numbers that no calls give.

use super::placed::any_placed;
use super::wild::wild;
use crate::call::Images;
use crate::comparison::Comparison;
use crate::damage::damaged;
use crate::keysets;
use crate::moves::any_moves;
use crate::placer::{any_code_order, link_ring, place, with_values};
use crosscheck::builder::image_of;
use crosscheck::common::{KEY_LABELS, SLOTS};
use crosscheck::image::{CodeMap, Image, Lists, Node, TOP_BIT};
use crosscheck::keylist::{to_bytes, Key};
use crosscheck::position::{Move, TYPED_LABELS};
use crosscheck::random::Random;
use crosscheck::rules::Rules;

pub fn run(comparison: &mut Comparison, random: &mut Random, amount: usize) {
    for _ in 0..3_000 * amount {
        let image = any_image(random);
        let borders = [random.below(4), 0, random.below(9)];
        move_over(comparison, random, &image, &borders);
    }
    for _ in 0..25 * amount {
        for image in [any_image(random), ring(random), long_key(random)] {
            across_limits(comparison, random, &image);
        }
    }
    last_slot(comparison);
}

/// Moves across the limit of a key and the most labels that are counted, up and down.
pub fn across_limits(comparison: &mut Comparison, random: &mut Random, image: &Image) {
    let near = random.below(KEY_LABELS + 3);
    let borders = [KEY_LABELS, KEY_LABELS + 1, TYPED_LABELS, near, KEY_LABELS, 1];
    move_over(comparison, random, image, &borders);
}

fn move_over(comparison: &mut Comparison, random: &mut Random, image: &Image, borders: &[usize]) {
    let slots = random.between(2, image.nodes.len());
    let (refused, smaller) = (refused(random, image), cut(image, slots).to_bytes());
    let images = [&image.to_bytes()[..], &refused, &smaller];
    let moves = any_moves(random, images, borders);
    comparison.moves(images, &moves);
    any_positions(comparison, random, images);
}

/// Numbers that no calls give, and a position of the first image over the others.
fn any_positions(comparison: &mut Comparison, random: &mut Random, images: Images) {
    let last = comparison.last_position();
    let near = last ^ 1 << random.below(64);
    for image in images {
        let any = random.word();
        let label = random.pick(&[0x61, 0x6E, any]);
        for number in [last, near, random.next(), random.next() >> 32, 0, u64::MAX] {
            comparison.any_position(image, number, label);
        }
    }
}

/// An image that passes 1 to 8.
fn any_image(random: &mut Random) -> Image {
    match random.below(6) {
        0 => {
            let list = to_bytes(&keysets::small(random));
            image_of(Rules::DOCUMENT, &list, 16_384).expect("small sets build")
        }
        1 => any_placed(random).0,
        2 => wild(random),
        3 => long_key(random),
        4 => ring(random),
        _ => passing(random),
    }
}

/// A damaged image that passes 1 to 8.
fn passing(random: &mut Random) -> Image {
    loop {
        let (image, _) = any_placed(random);
        if let Ok(image) = Image::parse(Rules::DOCUMENT, &damaged(random, &image)) {
            return image;
        }
    }
}

/// The bytes of an image, damaged so that one of 1 to 8 refuses them.
fn refused(random: &mut Random, image: &Image) -> Vec<u8> {
    loop {
        let bytes = damaged(random, image);
        if Image::parse(Rules::DOCUMENT, &bytes).is_err() {
            return bytes;
        }
    }
}

/// The first slots of an image, without children lists.
pub fn cut(image: &Image, slots: usize) -> Image {
    let nodes = image.nodes[..slots].to_vec();
    let lists = Lists { offsets: vec![0; slots + 1], children: Vec::new() };
    Image { nodes, lists, map: image.map.clone() }
}

/// Some front parts of a text that is longer than a key may be, as keys.
fn long_key(random: &mut Random) -> Image {
    let alphabet = keysets::alphabet(random);
    let length = random.pick(&[KEY_LABELS, KEY_LABELS + 1, KEY_LABELS + 9, TYPED_LABELS + 5]);
    let text: Key = (0..length).map(|_| random.pick(&alphabet)).collect();
    let fronts = (0..length).filter(|_| random.one_in(3)).chain([length]);
    let keys: Vec<Key> = fronts.map(|front| text[..front].to_vec()).collect();
    let pairs = with_values(random, &keys);
    let labels = any_code_order(random, &pairs);
    place(random, &pairs, labels, 0)
}

/// Slots in a ring through slot 1, slot 0 now and then among them, with ends on some of them, so
/// that a walk can go on without end.
fn ring(random: &mut Random) -> Image {
    let map = CodeMap::new(Rules::DOCUMENT, (0x61..).take(random.between(1, 3)).collect());
    let mut others = [0, 2, 3, 4, 5, 6, 7];
    random.shuffle(&mut others);
    let ring = [&[1], &others[..random.below(5)]].concat();
    let mut offsets: Vec<u32> = (0..8).map(|_| random.below(7) as u32).collect();
    offsets.sort_unstable();
    offsets[0] = 0;
    offsets.push(6);
    let lists = Lists { offsets, children: vec![1; 6] };
    let mut image = Image { nodes: vec![Node::default(); 8], lists, map };
    link_ring(random, &mut image, &ring, 0);
    image
}

/// The largest image, whose last slot is the place of a label, and one without this slot.
fn last_slot(comparison: &mut Comparison) {
    let last = SLOTS - 1;
    let mut nodes = vec![Node::default(); SLOTS];
    nodes[1].base = last as u32 ^ 1;
    nodes[last] = Node { base: last as u32 ^ 1, check: TOP_BIT | 1 };
    nodes[last ^ 1] = Node { base: TOP_BIT | 3, check: last as u32 };
    let map = CodeMap::new(Rules::DOCUMENT, vec![0x61]);
    let mut image = Image { nodes, map, ..Image::default() };
    image.relist();
    let images = [&image.to_bytes()[..], &[], &cut(&image, last).to_bytes()];
    let (a, back) = (Move::Push(0x61), Move::Back);
    comparison.moves(images, &[(0, a), (2, a), (2, back), (0, a), (2, back), (0, back)]);
}
