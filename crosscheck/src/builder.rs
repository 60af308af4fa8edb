//! The builder: an explicit trie, placed by first fit, base by base.

use crate::common::{refuse_if, Refusal, LISTED_LABELS, SLOTS};
use crate::image::{CodeMap, Image, Node, TOP_BIT};
use crate::keylist::{self, Key};
use crate::rules::{Rules, Wrong};
use std::cmp::Reverse;
use std::collections::{BTreeMap, BTreeSet, HashMap, VecDeque};

/// Builds into `out`, and leaves `work` as document 01 says. Returns the length of the image.
pub fn build(
    rules: Rules,
    list: &[u8],
    work: &mut [u32],
    out: &mut [u8],
) -> Result<usize, Refusal> {
    let image = image_of(rules, list, work.len());
    let built = image.and_then(|image| deliver(rules, &image.to_bytes(), out));
    let cleared = match built {
        Ok(_) => true,
        Err(Refusal(21)) => rules.breaks(Wrong::WorkClearedBy21),
        Err(_) => rules.keeps(Wrong::WorkLeftByRefusal),
    };
    if cleared {
        work.fill(0);
    }
    built
}

/// Writes the image to the front of the output, or gives refusal 23.
fn deliver(rules: Rules, image: &[u8], out: &mut [u8]) -> Result<usize, Refusal> {
    let needed = image.len() + rules.either(0, Wrong::OutputWantsSpareByte, 1);
    if out.len() < needed {
        if rules.breaks(Wrong::OutputTouchedBy23) {
            out.copy_from_slice(&image[..out.len()]);
        }
        return Err(Refusal(23));
    }
    out[..image.len()].copy_from_slice(image);
    if rules.breaks(Wrong::OutputBehindCleared) {
        out[image.len()..].fill(0);
    }
    Ok(image.len())
}

/// The image of a key list, built with work of `words` words. Gives every refusal but 23.
pub fn image_of(rules: Rules, list: &[u8], words: usize) -> Result<Image, Refusal> {
    refuse_if(words < rules.either(4, Wrong::WorkLimit3, 3), 21)?;
    let keys = keylist::parse(rules, list)?;
    let labels = labels_by_frequency(rules, &keys);
    let too_many =
        labels.len() > rules.either(LISTED_LABELS, Wrong::LabelLimit4094, LISTED_LABELS - 1);
    refuse_if(too_many && rules.keeps(Wrong::PlacedBeforeCounted), 20)?;
    let map = CodeMap::new(rules, labels);
    let slots = rules.either(words / 2, Wrong::SlotForEachWord, words).min(SLOTS);
    let nodes = place(rules, &Trie::of(&keys, &map), slots).ok_or(Refusal(22))?;
    refuse_if(too_many, 20)?;
    let mut image = Image { nodes, map, ..Image::default() };
    image.relist();
    Ok(image)
}

/// The used labels in code order.
fn labels_by_frequency(rules: Rules, keys: &[Key]) -> Vec<u32> {
    let mut frequency: HashMap<u32, usize> = HashMap::new();
    for label in keys.iter().flat_map(|key| counted(rules, key)) {
        *frequency.entry(label).or_default() += 1;
    }
    let mut labels: Vec<u32> = frequency.keys().copied().collect();
    let tie = |label: u32| rules.either(label, Wrong::TiesByLargerLabel, u32::MAX - label);
    labels.sort_by_key(|label| (Reverse(frequency[label]), tie(*label)));
    labels
}

/// The labels of a key that count: all of them, each as often as it occurs.
fn counted(rules: Rules, key: &Key) -> Vec<u32> {
    let mut labels = key.clone();
    if rules.breaks(Wrong::NeighboursCountOnce) {
        labels.dedup();
    }
    if rules.breaks(Wrong::KeysCounted) {
        labels = BTreeSet::from_iter(labels).into_iter().collect();
    }
    labels
}

/// What a code leads to.
#[derive(Clone, Copy)]
enum Below {
    End { value: u32 },
    Inner { id: usize },
}

/// For each prefix, the codes that follow it; the first prefix is the empty one.
struct Trie {
    inner: Vec<BTreeMap<u32, Below>>,
}

impl Trie {
    fn of(keys: &[Key], map: &CodeMap) -> Trie {
        let mut trie = Trie { inner: vec![BTreeMap::new()] };
        for (key, value) in keys.iter().zip(0..) {
            let codes =
                key.iter().map(|label| map.code(*label).expect("every used label is listed"));
            let last = codes.fold(0, |from, code| trie.child(from, code));
            trie.inner[last].insert(0, Below::End { value });
        }
        trie
    }

    fn child(&mut self, from: usize, code: u32) -> usize {
        let next = self.inner.len();
        match self.inner[from].entry(code).or_insert(Below::Inner { id: next }) {
            Below::Inner { id } if *id < next => *id,
            _ => {
                self.inner.push(BTreeMap::new());
                next
            }
        }
    }
}

/// Gives every prefix and every end its slot. The nodes end with the highest taken slot.
fn place(rules: Rules, trie: &Trie, slots: usize) -> Option<Vec<Node>> {
    let mut free = FreeSlots::new(rules, slots);
    let mut nodes = vec![Node::default(); 2];
    let mut ahead = VecDeque::from([(0, 1)]);
    while let Some((id, slot)) = next_place(rules, &mut ahead) {
        let below = &trie.inner[id];
        let codes: Vec<u32> = below.keys().copied().collect();
        let base = if codes.is_empty() { 0 } else { free.first_fit(rules, &codes)? };
        nodes[slot].base = base;
        // In falling order, so that the smallest code is popped from the back first.
        for (code, child) in below.iter().rev() {
            let taken = (base ^ code) as usize;
            free.take(taken);
            nodes.resize(nodes.len().max(taken + 1), Node::default());
            nodes[taken].check = slot as u32;
            match *child {
                Below::Inner { id } => ahead.push_back((id, taken)),
                Below::End { value } => {
                    nodes[taken].base = TOP_BIT | value;
                    nodes[slot].check |= TOP_BIT;
                }
            }
        }
    }
    Some(nodes)
}

/// The next prefix to place, and its slot: depth first, so a prefix's children
/// come before its siblings.
fn next_place(rules: Rules, ahead: &mut VecDeque<(usize, usize)>) -> Option<(usize, usize)> {
    if rules.breaks(Wrong::BreadthFirst) {
        return ahead.pop_front();
    }
    ahead.pop_back()
}

/// For each slot whether a child may still have it.
struct FreeSlots {
    free: Vec<bool>,
}

impl FreeSlots {
    fn new(rules: Rules, slots: usize) -> FreeSlots {
        let first = rules.either(2, Wrong::Slot1IsFree, 1);
        let free = (0..SLOTS).map(|slot| (first..slots).contains(&slot)).collect();
        FreeSlots { free }
    }

    fn take(&mut self, slot: usize) {
        self.free[slot] = false;
    }

    /// The smallest base for which every code's slot is free. The bases are tried one by one.
    fn first_fit(&self, rules: Rules, codes: &[u32]) -> Option<u32> {
        let first = rules.either(0, Wrong::BaseFrom1, 1);
        let fits = |base: &u32| codes.iter().all(|code| self.free[(base ^ code) as usize]);
        let mut fitting = (first..SLOTS as u32).filter(fits);
        if rules.keeps(Wrong::LargestBase) {
            return fitting.next();
        }
        fitting.next_back()
    }
}
