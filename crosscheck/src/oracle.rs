//! "When bytes are an image of a set of pairs", read as a definition: finds the
//! set by walking the nodes, then compares the bytes with every sentence of that
//! section. It shares nothing with refusals 9 to 12. Also says what lookup finds,
//! by the set alone, why a word is missing, by the set and the listed labels, and
//! of which lists of entries a table is the form.

use crate::common::{big_endian, is_scalar, labels_in, KEY_LABELS};
use crate::entries::{self, Entry, ENTRY_BYTES, HEAD_BYTES};
use crate::image::{Image, Node, TOP_BIT};
use crate::search::Case;
use crate::why::{Reason, Why};
use std::collections::{BTreeMap, BTreeSet, HashMap};

/// A key with its codes and its value number.
#[derive(Clone, Debug, PartialEq, Eq, PartialOrd, Ord)]
pub struct Pair {
    pub codes: Vec<u32>,
    pub labels: Vec<u32>,
    pub value: u32,
}

/// The set, in code order, of which an image that passed 1 to 8 is an image, if there is one.
pub fn set_of(image: &Image) -> Option<Vec<Pair>> {
    let labels = &image.map.labels;
    let different: BTreeSet<u32> = labels.iter().copied().collect();
    if different.len() != labels.len() || !labels.iter().all(|label| is_scalar(*label)) {
        return None;
    }
    let pairs = candidate(image);
    let slots = slots_for(image, &pairs)?;
    (words_agree(image, &slots) && lists_agree(image, &slots)).then_some(pairs)
}

/// The case of a query, by the keys of a set that begin with it.
pub fn lookup(set: &[Pair], labels: &[u32]) -> Case {
    let (same, longer): (Vec<&Pair>, Vec<&Pair>) = set
        .iter()
        .filter(|pair| pair.labels.starts_with(labels))
        .partition(|pair| pair.labels == labels);
    match (same.first(), longer.is_empty()) {
        (None, true) => Case::Nothing,
        (None, false) => Case::Prefix,
        (Some(key), true) => Case::Exact(key.value),
        (Some(key), false) => Case::ExactAndPrefix(key.value),
    }
}

/// Why a query is missing in a set, or found. The place is the length of the longest front part of the
/// query with which a key begins.
pub fn why(set: &[Pair], listed: &[u32], labels: &[u32]) -> Why {
    let shared = |pair: &Pair| pair.labels.iter().zip(labels).take_while(|(a, b)| a == b).count();
    let place = set.iter().map(shared).max().unwrap_or(0);
    if labels.len() > KEY_LABELS {
        Reason::TooLong.at(0)
    } else if set.iter().any(|pair| pair.labels == labels) {
        Reason::Found.at(0)
    } else if place == labels.len() {
        Reason::NoKeyEnds.at(0)
    } else if listed.contains(&labels[place]) {
        Reason::NoStep.at(place)
    } else {
        Reason::NotListed.at(place)
    }
}

/// The lists of entries, one for each value, of which bytes are the table, if there are any: those
/// that the widths of the offset pairs give, if writing them gives the same bytes.
pub fn lists_of(table: &[u8]) -> Option<Vec<Vec<Entry>>> {
    let values = big_endian(table.get(1..HEAD_BYTES)?) as usize;
    let words = labels_in(&table[HEAD_BYTES..]);
    let offsets = words.get(..=values)?;
    let entries = table[HEAD_BYTES + 4 * offsets.len()..].chunks_exact(ENTRY_BYTES);
    let mut entries = entries.filter_map(|entry| entry.try_into().ok());
    let widths = offsets.windows(2).map(|pair| pair[1].saturating_sub(pair[0]));
    let lists: Vec<Vec<Entry>> =
        widths.map(|width| entries.by_ref().take(width as usize).collect()).collect();
    (entries::to_bytes(&lists) == table).then_some(lists)
}

/// The only set the bytes can be an image of: everything that slot 1 leads to.
pub fn candidate(image: &Image) -> Vec<Pair> {
    let mut below: HashMap<u32, Vec<u32>> = HashMap::new();
    for slot in 2..image.nodes.len() as u32 {
        below.entry(image.node(slot).parent()).or_default().push(slot);
    }
    let mut pairs = Vec::new();
    collect(image, &below, 1, &mut Vec::new(), &mut pairs);
    pairs.sort();
    pairs
}

/// Adds the pairs below a prefix. Each slot has one parent, so the walk ends.
fn collect(
    image: &Image,
    below: &HashMap<u32, Vec<u32>>,
    slot: u32,
    codes: &mut Vec<u32>,
    pairs: &mut Vec<Pair>,
) {
    for &child in below.get(&slot).into_iter().flatten() {
        let code = image.node(slot).low_base() ^ child;
        if code == 0 {
            let labels = codes.iter().map(|code| image.map.label(*code)).collect();
            let value = image.node(child).low_base();
            pairs.push(Pair { codes: codes.clone(), labels, value });
        } else if code as usize <= image.map.len() && codes.len() < KEY_LABELS {
            codes.push(code);
            collect(image, below, child, codes, pairs);
            codes.pop();
        }
    }
}

/// What a slot is for. A prefix is identified by the slot and code that lead to it.
#[derive(Clone, Copy, PartialEq, Eq)]
struct Given {
    parent: u32,
    code: u32,
    /// The value number, if the slot is an end.
    end: Option<u32>,
}

/// The slots that the set needs, and which of them are keys.
struct Slots {
    given: BTreeMap<u32, Given>,
    keys: BTreeSet<u32>,
}

impl Slots {
    /// Gives out the slot at `base XOR code`; none if it lies outside or has another use.
    fn give(&mut self, image: &Image, given: Given) -> Option<u32> {
        let slot = image.node(given.parent).low_base() ^ given.code;
        let inside = (2..image.nodes.len()).contains(&(slot as usize));
        (inside && *self.given.entry(slot).or_insert(given) == given).then_some(slot)
    }
}

fn slots_for(image: &Image, pairs: &[Pair]) -> Option<Slots> {
    let mut slots = Slots { given: BTreeMap::new(), keys: BTreeSet::new() };
    slots.given.insert(1, Given { parent: 0, code: 0, end: None });
    for pair in pairs {
        let mut slot = 1;
        for &code in &pair.codes {
            slot = slots.give(image, Given { parent: slot, code, end: None })?;
        }
        slots.keys.insert(slot);
        slots.give(image, Given { parent: slot, code: 0, end: Some(pair.value) })?;
    }
    Some(slots)
}

/// Whether the two words of every slot are what the set requires; the base of a prefix is free.
fn words_agree(image: &Image, slots: &Slots) -> bool {
    let empty_set = slots.given.len() == 1;
    let wanted = |slot: u32, node: Node| match slots.given.get(&slot) {
        None => Node::default(),
        Some(&Given { parent, end: Some(value), .. }) => {
            Node { base: TOP_BIT | value, check: parent }
        }
        Some(_) if empty_set => Node::default(),
        Some(&Given { parent, .. }) => {
            let flag = if slots.keys.contains(&slot) { TOP_BIT } else { 0 };
            Node { base: node.low_base(), check: flag | parent }
        }
    };
    image.nodes.iter().zip(0..).all(|(node, slot)| *node == wanted(slot, *node))
}

/// Whether the lists are, parent by parent, the given slots by ascending code.
fn lists_agree(image: &Image, slots: &Slots) -> bool {
    let mut edges: Vec<(u32, u32, u32)> = Vec::new();
    for (&slot, given) in slots.given.iter().filter(|(slot, _)| **slot != 1) {
        edges.push((given.parent, given.code, slot));
    }
    edges.sort_unstable();
    let before = |parent: u32| edges.partition_point(|edge| edge.0 < parent) as u32;
    image.lists.offsets.iter().zip(0..).all(|(offset, parent)| *offset == before(parent))
        && image.lists.children.iter().eq(edges.iter().map(|(_, _, slot)| slot))
}
