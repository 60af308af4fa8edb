//! Images that pass 1 to 8 and little else, on which searches still walk: steps
//! to slots 0 and 1, leaves with children, ends that are not leaves, falling
//! offsets, labels listed twice or not scalar values.

use crate::call::Call;
use crate::comparison::Comparison;
use crate::explore::{any_places, any_typing, search};
use crate::keysets::NO_SCALARS;
use crate::queries::{any_query, walk};
use crosscheck::common::{query_of, KEY_LABELS};
use crosscheck::image::{CodeMap, Image, Lists, Node, TOP_BIT};
use crosscheck::random::Random;
use crosscheck::rules::Rules;

pub fn run(comparison: &mut Comparison, random: &mut Random, amount: usize) {
    for _ in 0..4_000 * amount {
        let image = wild(random);
        let bytes = image.to_bytes();
        comparison.image(&bytes);
        for _ in 0..4 {
            let query = match random.below(4) {
                0 => any_query(random, &image, &[]),
                1 => query_of(&long_walk(random, &image)),
                _ => {
                    let length = random.below(6);
                    query_of(&walk(random, &image, length))
                }
            };
            search(comparison, &bytes, &query, any_places(random));
        }
        comparison.call(Call::Complete { image: &bytes, prefix: &[], room: random.below(9) });
        any_typing(comparison, random, &bytes);
    }
}

/// A walk whose length is near the limits of a query.
fn long_walk(random: &mut Random, image: &Image) -> Vec<u32> {
    let lengths: Vec<usize> = (KEY_LABELS - 2..=KEY_LABELS + 2).chain([200]).collect();
    let length = random.pick(&lengths);
    walk(random, image, length)
}

pub fn wild(random: &mut Random) -> Image {
    let slots = random.between(2, 12);
    let labels = (0..random.below(6)).map(|_| wild_label(random)).collect();
    let map = CodeMap::new(Rules::DOCUMENT, labels);
    let flag = |random: &mut Random, times: usize| if random.one_in(times) { TOP_BIT } else { 0 };
    let mut nodes = vec![Node::default(); slots];
    for node in &mut nodes {
        node.base = random.below(slots + 4) as u32 | flag(random, 4);
    }
    for slot in 0..slots {
        nodes[slot].check = wild_parent(random, &nodes, &map, slot) | flag(random, 2);
    }
    let edges = random.below(slots - 1);
    let any = |random: &mut Random| random.below(edges + 3) as u32;
    let mut offsets: Vec<u32> = (0..=slots).map(|_| any(random)).collect();
    if random.one_in(2) {
        offsets.sort_unstable();
    }
    if random.one_in(10) {
        offsets[1] = u32::MAX - random.below(3) as u32;
    }
    offsets[0] = 0;
    offsets[slots] = edges as u32;
    let children = (0..edges).map(|_| random.below(slots + 1) as u32).collect();
    Image { nodes, lists: Lists { offsets, children }, map }
}

fn wild_label(random: &mut Random) -> u32 {
    match random.below(6) {
        0 => random.pick(&NO_SCALARS),
        1 => 0,
        _ => 0x61 + random.below(4) as u32,
    }
}

/// Mostly a parent from which a listed code, or code 0, steps to the slot.
fn wild_parent(random: &mut Random, nodes: &[Node], map: &CodeMap, slot: usize) -> u32 {
    let steps =
        |parent: &u32| (nodes[*parent as usize].low_base() ^ slot as u32) as usize <= map.len();
    let parents: Vec<u32> = (0..nodes.len() as u32).filter(steps).collect();
    match random.below(6) {
        0 => random.below(nodes.len() + 2) as u32,
        1 => 0,
        _ if parents.is_empty() => random.below(nodes.len()) as u32,
        _ => random.pick(&parents),
    }
}
