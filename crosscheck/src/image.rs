//! An image as owned vectors: parsing with refusals 1 to 8, and writing.

use crate::common::{big_endian, labels_in, refuse_if, Refusal, LISTED_LABELS, SLOTS};
use crate::rules::{Rules, Wrong};
use std::collections::HashMap;

pub const HEADER_LEN: usize = 24;
/// IS_LEAF in a base, HAS_LEAF in a check.
pub const TOP_BIT: u32 = 1 << 31;

/// One slot's two words.
#[derive(Clone, Copy, Debug, Default, PartialEq, Eq)]
pub struct Node {
    pub base: u32,
    pub check: u32,
}

impl Node {
    pub fn is_leaf(self) -> bool {
        self.base & TOP_BIT != 0
    }

    pub fn has_leaf(self) -> bool {
        self.check & TOP_BIT != 0
    }

    pub fn parent(self) -> u32 {
        self.check & !TOP_BIT
    }

    /// The base of an inner slot, the value number of a leaf.
    pub fn low_base(self) -> u32 {
        self.base & !TOP_BIT
    }

    pub fn is_zero(self) -> bool {
        self == Node::default()
    }
}

/// The listed labels, and the first code of each.
#[derive(Clone, Debug, Default)]
pub struct CodeMap {
    pub labels: Vec<u32>,
    codes: HashMap<u32, u32>,
}

impl CodeMap {
    pub fn new(rules: Rules, labels: Vec<u32>) -> CodeMap {
        let mut codes = HashMap::with_capacity(labels.len());
        for (label, code) in labels.iter().zip(1..) {
            if rules.breaks(Wrong::LastPlaceCounts) {
                codes.insert(*label, code);
            }
            codes.entry(*label).or_insert(code);
        }
        CodeMap { labels, codes }
    }

    /// Refusal 7.
    fn parse(rules: Rules, map: &[u8]) -> Result<CodeMap, Refusal> {
        refuse_if(map.len() < 5 || map[0] != 1, 7)?;
        let mut words = labels_in(&map[1..]);
        if rules.breaks(Wrong::CodeMapLittleEndian) {
            words.iter_mut().for_each(|word| *word = word.swap_bytes());
        }
        let limit = rules.either(LISTED_LABELS, Wrong::ListLimit4096, 4_096);
        let listed = words.remove(0) as usize;
        refuse_if(listed > limit || map.len() != 5 + 4 * listed, 7)?;
        Ok(CodeMap::new(rules, words))
    }

    /// The code of a label, if it is listed.
    pub fn code(&self, label: u32) -> Option<u32> {
        self.codes.get(&label).copied()
    }

    /// The label of a code from 1 up.
    pub fn label(&self, code: u32) -> u32 {
        self.labels[code as usize - 1]
    }

    pub fn len(&self) -> usize {
        self.labels.len()
    }

    pub fn is_empty(&self) -> bool {
        self.labels.is_empty()
    }
}

/// N, E and the start of the code map, from a header that passed 1 to 6.
struct Header {
    slots: usize,
    edges: usize,
    map_at: usize,
}

impl Header {
    fn parse(rules: Rules, bytes: &[u8]) -> Result<Header, Refusal> {
        refuse_if(bytes.len() < HEADER_LEN, 1)?;
        refuse_if(!bytes.starts_with(b"LXTR"), 2)?;
        let reserved_in_front = bytes[5..8] != [0; 3];
        let reserved_behind = bytes[20..24] != [0; 4] && rules.keeps(Wrong::LastReservedIgnored);
        let reserved = reserved_in_front || reserved_behind;
        refuse_if(reserved && rules.breaks(Wrong::ReservedBeforeVersion), 4)?;
        refuse_if(bytes[4] != 3, 3)?;
        refuse_if(reserved, 4)?;
        let number = |at: usize| big_endian(&bytes[at..]).swap_bytes() as usize;
        let (slots, edges, map_len) = (number(8), number(12), number(16));
        let most = rules.either(SLOTS, Wrong::SlotLimit65535, SLOTS - 1);
        refuse_if(slots < 2 || slots > most, 5)?;
        refuse_if(edges > rules.either(slots - 2, Wrong::OneEdgeTooMany, slots - 1), 5)?;
        let map_at = HEADER_LEN + 8 * slots + 4 * (slots + 1) + 4 * edges;
        let (sum, length) = (map_at + map_len, bytes.len());
        refuse_if(rules.either(sum != length, Wrong::SumIn32Bits, sum as u32 != length as u32), 6)?;
        Ok(Header { slots, edges, map_at })
    }
}

/// The children lists of all slots.
#[derive(Clone, Debug, Default)]
pub struct Lists {
    pub offsets: Vec<u32>,
    pub children: Vec<u32>,
}

impl Lists {
    /// The list of a slot; empty if offsets fall or leave the children.
    pub fn of(&self, slot: u32) -> &[u32] {
        let at = slot as usize;
        let part = self.offsets[at] as usize..self.offsets[at + 1] as usize;
        self.children.get(part).unwrap_or_default()
    }

    /// The lists that follow from the parents in the nodes: used slots from 2 up,
    /// grouped by parent, by ascending code. Every parent has to be below N.
    pub fn by_parent(image: &Image) -> Lists {
        let edge = |slot| (image.node(slot).parent(), image.code_of_slot(slot), slot);
        let mut edges: Vec<(u32, u32, u32)> = image.used_from_2().map(edge).collect();
        edges.sort_unstable();
        let mut offsets = vec![0; image.nodes.len() + 1];
        for (parent, _, _) in &edges {
            offsets[*parent as usize + 1] += 1;
        }
        for at in 1..offsets.len() {
            offsets[at] += offsets[at - 1];
        }
        Lists { offsets, children: edges.into_iter().map(|(_, _, slot)| slot).collect() }
    }
}

/// An image that passed 1 to 8, or one to be written.
#[derive(Clone, Debug, Default)]
pub struct Image {
    pub nodes: Vec<Node>,
    pub lists: Lists,
    pub map: CodeMap,
}

impl Image {
    /// Refusals 1 to 8.
    pub fn parse(rules: Rules, bytes: &[u8]) -> Result<Image, Refusal> {
        let header = Header::parse(rules, bytes)?;
        // After 6 the map lies inside; only a wrong sum in 32 bits can point past the end.
        let (front, map) = bytes.split_at_checked(header.map_at).ok_or(Refusal(7))?;
        let map = CodeMap::parse(rules, map)?;
        let words: Vec<u32> =
            labels_in(&front[HEADER_LEN..]).into_iter().map(u32::swap_bytes).collect();
        let (nodes, lists) = words.split_at(2 * header.slots);
        let (offsets, children) = lists.split_at(header.slots + 1);
        let last_is_edges = offsets[header.slots] as usize == header.edges
            || rules.breaks(Wrong::LastOffsetIgnored);
        refuse_if(offsets[0] != 0 || !last_is_edges, 8)?;
        let node = |pair: &[u32]| Node { base: pair[0], check: pair[1] };
        let lists = Lists { offsets: offsets.to_vec(), children: children.to_vec() };
        Ok(Image { nodes: nodes.chunks_exact(2).map(node).collect(), lists, map })
    }

    pub fn to_bytes(&self) -> Vec<u8> {
        let map_len = 5 + 4 * self.map.len();
        let mut bytes = b"LXTR\x03\0\0\0".to_vec();
        let edges = self.lists.children.len();
        let header = [self.nodes.len(), edges, map_len, 0].map(|number| number as u32);
        let nodes = self.nodes.iter().flat_map(|node| [node.base, node.check]);
        let lists = self.lists.offsets.iter().chain(&self.lists.children).copied();
        for word in header.into_iter().chain(nodes).chain(lists) {
            bytes.extend(word.to_le_bytes());
        }
        bytes.push(1);
        bytes.extend((self.map.len() as u32).to_be_bytes());
        bytes.extend(self.map.labels.iter().flat_map(|label| label.to_be_bytes()));
        bytes
    }

    pub fn node(&self, slot: u32) -> Node {
        self.nodes[slot as usize]
    }

    /// The used slots from 2 up.
    pub fn used_from_2(&self) -> impl Iterator<Item = u32> + '_ {
        (2..self.nodes.len() as u32).filter(|&slot| self.node(slot).parent() != 0)
    }

    /// The code by which its parent reaches a used slot from 2 up.
    pub fn code_of_slot(&self, slot: u32) -> u32 {
        self.node(self.node(slot).parent()).low_base() ^ slot
    }

    /// Makes the lists agree with the parents in the nodes.
    pub fn relist(&mut self) {
        self.lists = Lists::by_parent(self);
    }
}
