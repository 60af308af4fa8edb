//! Every short sequence of moves of a typing position, over the examples of document
//! 01, over images with cycles, and over bytes on which the position has to stay.

use super::examples::{built, changed, n_na};
use super::positions::{across_limits, cut};
use crate::call::Images;
use crate::comparison::Comparison;
use crate::moves::answers_are_said;
use crosscheck::image::{CodeMap, Image, Lists, Node, TOP_BIT};
use crosscheck::position::Move;
use crosscheck::random::Random;
use crosscheck::rules::Rules;

const N: Move = Move::Push(0x6E);
const A: Move = Move::Push(0x61);
const X: Move = Move::Push(0x78);

pub fn run(comparison: &mut Comparison, random: &mut Random) {
    let mut images = vec![built(&[]), built(&[vec![]]), built(&n_na())];
    images.push(built(&[vec![0x61], vec![0x62], vec![0x62, 0x62]]));
    images.extend(changed());
    images.extend(cycles());
    for image in images.iter().map(Image::to_bytes) {
        every_sequence(comparison, [&image, &[], &[]], &[N, A, X, Move::Back].map(|it| (0, it)), 4);
    }
    elsewhere(comparison, &built(&n_na()));
    for image in cycles().iter().chain([&built(&n_na())]) {
        across_limits(comparison, random, image);
    }
}

/// Slot 1 that reaches itself; two slots that reach each other; a step to slot 0, and steps from
/// there to slots whose parent is 0, slot 1 among them.
pub fn cycles() -> [Image; 3] {
    let has_leaf = TOP_BIT;
    let leaf = |value: u32| TOP_BIT | value;
    let image = |nodes: [(u32, u32); 4], offsets: [u32; 5]| Image {
        nodes: nodes.map(|(base, check)| Node { base, check }).to_vec(),
        lists: Lists { offsets: offsets.to_vec(), children: vec![2; 2] },
        map: CodeMap::new(Rules::DOCUMENT, vec![0x61, 0x6E]),
    };
    [
        image([(leaf(7), 1), (0, has_leaf | 1), (0, 0), (0, 0)], [0, 0, 2, 2, 2]),
        image([(0, 0), (3, has_leaf | 2), (0, 1), (leaf(5), 1)], [0, 0, 2, 2, 2]),
        image([(3, has_leaf | 1), (1, 0), (2, 0), (leaf(9), 0)], [0, 2, 2, 2, 2]),
    ]
}

/// All sequences of so many moves of these kinds, but for those whose answers are free.
fn every_sequence(
    comparison: &mut Comparison,
    images: Images,
    kinds: &[(usize, Move)],
    length: u32,
) {
    for number in 0..kinds.len().pow(length) {
        let kind = |place: u32| kinds[number / kinds.len().pow(place) % kinds.len()];
        let moves: Vec<(usize, Move)> = (0..length).map(kind).collect();
        if answers_are_said(images, &moves) {
            comparison.moves(images, &moves);
        }
    }
}

/// Moves over an image, over bytes that are refused, and over an image that ends before the slot
/// of the first label.
fn elsewhere(comparison: &mut Comparison, image: &Image) {
    let bytes = image.to_bytes();
    let refused = [&bytes[..], &[0]].concat();
    let smaller = cut(image, 3).to_bytes();
    let kinds = [0, 1, 2].map(|over| [N, A, Move::Back].map(|next| (over, next))).concat();
    every_sequence(comparison, [&bytes, &refused, &smaller], &kinds, 4);
}
