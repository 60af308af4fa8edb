//! A second placer with random bases, so that an image of a set has other slots
//! and codes than the builder's, unused labels and spare slots; images whose lists
//! agree with parents that never reach slot 1; and rings of slots.

use crosscheck::common::SLOTS;
use crosscheck::image::{CodeMap, Image, Node, TOP_BIT};
use crosscheck::keylist::Key;
use crosscheck::random::Random;
use crosscheck::rules::Rules;
use std::collections::{BTreeMap, BTreeSet, HashSet};

/// Keys with their value numbers.
pub type Pairs = BTreeMap<Key, u32>;

/// Gives keys random value numbers, small ones and the largest among them.
pub fn with_values(random: &mut Random, keys: &[Key]) -> Pairs {
    let value = |random: &mut Random| match random.below(4) {
        0 => random.below(3) as u32,
        1 => TOP_BIT - 1 - random.below(3) as u32,
        _ => random.word() & !TOP_BIT,
    };
    keys.iter().map(|key| (key.clone(), value(random))).collect()
}

/// The used labels and some others, in any order.
pub fn any_code_order(random: &mut Random, pairs: &Pairs) -> Vec<u32> {
    let mut labels: BTreeSet<u32> = pairs.keys().flatten().copied().collect();
    for _ in 0..random.pick(&[0, 0, 1, 3, 8]) {
        labels.insert(0x2000 + random.below(500) as u32);
    }
    let mut labels: Vec<u32> = labels.into_iter().collect();
    random.shuffle(&mut labels);
    labels
}

/// An image of the pairs with random bases and `spare` unused slots at its end.
/// Key lengths are not limited, so that chains that are too long can be made as
/// well.
pub fn place(random: &mut Random, pairs: &Pairs, labels: Vec<u32>, spare: usize) -> Image {
    let map = CodeMap::new(Rules::DOCUMENT, labels);
    let codes_below = codes_below(pairs, &map);
    let mut slots =
        Slots { nodes: vec![Node::default(); 2], taken: HashSet::from([0, 1]), codes: map.len() };
    let mut ahead: Vec<(Vec<u32>, u32)> = vec![(Vec::new(), 1)];
    while !ahead.is_empty() {
        let (prefix, slot) = ahead.swap_remove(random.below(ahead.len()));
        let Some(codes) = codes_below.get(&prefix) else {
            continue;
        };
        let base = slots.take_any_base(random, codes);
        slots.nodes[slot as usize].base = base;
        for &code in codes {
            let child = base ^ code;
            slots.nodes[child as usize].check = slot;
            if code == 0 {
                slots.nodes[slot as usize].check |= TOP_BIT;
                let key: Key = prefix.iter().map(|code| map.label(*code)).collect();
                slots.nodes[child as usize].base = TOP_BIT | pairs[&key];
            } else {
                ahead.push(([prefix.as_slice(), &[code]].concat(), child));
            }
        }
    }
    let mut nodes = slots.nodes;
    nodes.resize((nodes.len() + spare).min(SLOTS), Node::default());
    let mut image = Image { nodes, map, ..Image::default() };
    image.relist();
    image
}

/// For each prefix, as codes, the codes that follow it; 0 for an end.
fn codes_below(pairs: &Pairs, map: &CodeMap) -> BTreeMap<Vec<u32>, BTreeSet<u32>> {
    let mut below: BTreeMap<Vec<u32>, BTreeSet<u32>> = BTreeMap::new();
    for key in pairs.keys() {
        let mut codes: Vec<u32> = key.iter().filter_map(|label| map.code(*label)).collect();
        codes.push(0);
        for (length, &code) in codes.iter().enumerate() {
            below.entry(codes[..length].to_vec()).or_default().insert(code);
        }
    }
    below
}

/// Slots handed out so far.
struct Slots {
    nodes: Vec<Node>,
    taken: HashSet<u32>,
    codes: usize,
}

impl Slots {
    /// Tries random bases, in a range that grows until one fits.
    fn take_any_base(&mut self, random: &mut Random, codes: &BTreeSet<u32>) -> u32 {
        let mut range = (2 * self.taken.len()).max(self.codes + 1).max(4).next_power_of_two();
        loop {
            for _ in 0..30 {
                let base = random.below(range) as u32;
                if codes.iter().all(|code| !self.taken.contains(&(base ^ code))) {
                    self.taken.extend(codes.iter().map(|code| base ^ code));
                    let highest = codes.iter().map(|code| base ^ code).max().unwrap_or(0);
                    let len = self.nodes.len().max(highest as usize + 1);
                    self.nodes.resize(len, Node::default());
                    return base;
                }
            }
            range = (2 * range).min(SLOTS);
        }
    }
}

/// Adds slots that are each other's parents in a ring, with ends on some of
/// them. Slots and lists stay right, yet none of the new slots reaches slot 1.
pub fn add_ring(random: &mut Random, image: &mut Image, length: usize) {
    let first = image.nodes.len();
    image.nodes.resize(first + length, Node::default());
    let slots: Vec<usize> = (first..first + length).collect();
    link_ring(random, image, &slots, 2);
    image.relist();
}

/// Makes each slot the parent of the next and the last one that of the first. Some of them get an
/// end, where its slot is free and not below `least`.
pub fn link_ring(random: &mut Random, image: &mut Image, slots: &[usize], least: usize) {
    for (&slot, &next) in slots.iter().zip(slots.iter().cycle().skip(1)) {
        image.nodes[slot].base = (next ^ random.between(1, image.map.len())) as u32;
        image.nodes[next].check = slot as u32;
    }
    for &slot in slots {
        let end = image.nodes[slot].base as usize;
        if end < least || slots.contains(&end) || random.one_in(3) {
            continue;
        }
        image.nodes.resize(image.nodes.len().max(end + 1), Node::default());
        if image.nodes[end].is_zero() {
            image.nodes[end] = Node { base: TOP_BIT | random.below(9) as u32, check: slot as u32 };
            image.nodes[slot].check |= TOP_BIT;
        }
    }
}

/// Moves a slot to another parent where the code allows it, and keeps the lists
/// right. The result may be an image of another set, be too deep, or have a
/// cycle.
pub fn rehang(random: &mut Random, image: &mut Image) {
    let inner: Vec<u32> = image.used_from_2().filter(|slot| !image.node(*slot).is_leaf()).collect();
    for _ in 0..40 {
        if inner.is_empty() {
            break;
        }
        let (slot, parent) = (random.pick(&inner), random.pick(&inner));
        let code = image.node(parent).low_base() ^ slot;
        if (1..=image.map.len()).contains(&(code as usize)) {
            image.nodes[slot as usize].check = image.node(slot).check & TOP_BIT | parent;
            break;
        }
    }
    image.relist();
    if image.lists.of(1).is_empty() && !random.one_in(3) {
        image.nodes[1].base = 0;
    }
}
