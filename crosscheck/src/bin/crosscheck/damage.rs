//! Damages an image in every field that a refusal from 1 to 12 looks at.

use crate::keysets::NO_SCALARS;
use crosscheck::image::{CodeMap, Image, HEADER_LEN, TOP_BIT};
use crosscheck::random::Random;
use crosscheck::rules::Rules;

/// The image's bytes with one to three faults.
pub fn damaged(random: &mut Random, image: &Image) -> Vec<u8> {
    let mut image = image.clone();
    if random.one_in(10) {
        resize_map(random, &mut image);
    }
    let mut draft = Draft::of(&image);
    for _ in 0..random.pick(&[1, 1, 1, 1, 2, 2, 3]) {
        draft.damage(random);
    }
    draft.bytes
}

/// Lists one label more, perhaps one that is already there, or one label less.
fn resize_map(random: &mut Random, image: &mut Image) {
    let mut labels = image.map.labels.clone();
    if random.one_in(2) {
        labels.push(random.pick(&[0x61, 0x6E, 0x3042, 0x1F600, 0xD800]));
    } else {
        labels.pop();
    }
    image.map = CodeMap::new(Rules::DOCUMENT, labels);
}

/// The bytes of an image, with its original sizes.
struct Draft {
    bytes: Vec<u8>,
    slots: usize,
    edges: usize,
    labels: usize,
}

impl Draft {
    fn of(image: &Image) -> Draft {
        Draft {
            bytes: image.to_bytes(),
            slots: image.nodes.len(),
            edges: image.lists.children.len(),
            labels: image.map.len(),
        }
    }

    fn offsets_at(&self) -> usize {
        HEADER_LEN + 8 * self.slots
    }

    fn children_at(&self) -> usize {
        self.offsets_at() + 4 * (self.slots + 1)
    }

    fn map_at(&self) -> usize {
        self.children_at() + 4 * self.edges
    }

    /// Changes the little-endian number at `at`; does nothing if it is cut off.
    fn change(&mut self, at: usize, change: impl FnOnce(u32) -> u32) {
        if let Some(Ok(bytes)) = self.bytes.get_mut(at..at + 4).map(<&mut [u8; 4]>::try_from) {
            *bytes = change(u32::from_le_bytes(*bytes)).to_le_bytes();
        }
    }

    fn word(&self, at: usize) -> u32 {
        let bytes = self.bytes.get(at..at + 4).and_then(|bytes| bytes.try_into().ok());
        bytes.map_or(0, u32::from_le_bytes)
    }

    fn damage(&mut self, random: &mut Random) {
        match random.below(20) {
            0 => self.header_byte(random),
            1 => self.sizes(random),
            2 => self.wrapped_sum(random),
            3 => self.length(random),
            4 => self.map_head(random),
            5 | 6 => self.label(random),
            7..=11 => self.node(random),
            12 | 13 => self.offset(random),
            14..=16 => self.children(random),
            17 => self.unused_slot(random),
            _ => self.any_byte(random),
        }
    }

    fn header_byte(&mut self, random: &mut Random) {
        let at = random.below(HEADER_LEN.min(self.bytes.len()).max(1));
        if let Some(byte) = self.bytes.get_mut(at) {
            *byte = random.pick(&[0, 1, 2, 3, 4, b'L', b'l', 0xFF, *byte ^ 1, *byte ^ 0x80]);
        }
    }

    /// N, E or M becomes a neighbour, a limit or something huge.
    fn sizes(&mut self, random: &mut Random) {
        let slots = self.slots as u32;
        let limits =
            [0, 1, 2, 4, 5, slots - 2, slots - 1, slots, 65_535, 65_536, 65_537, TOP_BIT, u32::MAX];
        let (at, near) =
            (random.pick(&[8, 12, 16]), random.pick(&[1, 4, 8, 12, 0x4000_0000, 0x8000_0000]));
        let limit = random.pick(&limits);
        match random.below(3) {
            0 => self.change(at, |_| limit),
            1 => self.change(at, |size| size.wrapping_add(near)),
            _ => self.change(at, |size| size.wrapping_sub(near)),
        }
    }

    /// More slots or edges and a map shorter by as much: the sum stays, at least in 32 bits.
    fn wrapped_sum(&mut self, random: &mut Random) {
        let slots = random.pick(&[0, 1, 1, 2, 5, 1_000]);
        let edges = random.pick(&[0, 1, slots]);
        self.change(8, |size| size.wrapping_add(slots));
        self.change(12, |size| size.wrapping_add(edges));
        self.change(16, |size| size.wrapping_sub(12 * slots + 4 * edges));
    }

    fn length(&mut self, random: &mut Random) {
        let (len, map_at) = (self.bytes.len(), self.map_at());
        match random.below(4) {
            0 => self.bytes.truncate(random.below(len + 1)),
            1 => self.bytes.truncate(len - random.below(len.min(5) + 1)),
            2 => self.bytes.resize(len + random.between(1, 9), random.pick(&[0, 1, 0xEE])),
            _ => {
                // A map too short for its head, with a header that gives its length.
                let short = random.below(6);
                self.bytes.truncate(map_at + short);
                self.change(16, |_| short as u32);
            }
        }
    }

    /// The map's version or its count L.
    fn map_head(&mut self, random: &mut Random) {
        let at = self.map_at();
        if random.one_in(3) {
            if let Some(version) = self.bytes.get_mut(at) {
                *version = random.pick(&[0, 2, 3, 0xFF]);
            }
            return;
        }
        let near = random.pick(&[1, u32::MAX, 0x4000_0000, 0x8000_0000, 4_096, 0xFF00_0000]);
        self.change(at + 1, |count| count.swap_bytes().wrapping_add(near).swap_bytes());
    }

    fn label(&mut self, random: &mut Random) {
        let at = |place: usize| self.map_at() + 5 + 4 * place;
        let (to, from) =
            (at(random.below(self.labels.max(1))), at(random.below(self.labels.max(1))));
        let label = match random.below(3) {
            0 => self.word(from),
            1 => random.pick(&NO_SCALARS).swap_bytes(),
            _ => (random.below(0x11_0800) as u32).swap_bytes(),
        };
        if self.labels > 0 {
            self.change(to, |_| label);
        }
    }

    /// One word of any node, slots 0 and 1 often.
    fn node(&mut self, random: &mut Random) {
        let any = random.below(self.slots);
        let slot = random.pick(&[any, any, any, any, 0, 1]);
        let at = HEADER_LEN + 8 * slot + random.pick(&[0, 4]);
        let near = random.pick(&[1, 2, 3, u32::MAX]);
        let inside = random.below(self.slots + 2) as u32;
        match random.below(8) {
            0 | 1 => self.change(at, |word| word ^ TOP_BIT),
            2 => self.change(at, |word| word.wrapping_add(near)),
            3 => self.change(at, |word| word ^ near),
            4 => self.change(at, |_| 0),
            5 => self.change(at, |word| word & TOP_BIT | inside),
            6 => self.change(at, |word| word ^ 1 << (near & 31)),
            _ => self.change(at, |_| random.word()),
        }
    }

    fn offset(&mut self, random: &mut Random) {
        let any = random.below(self.slots + 1);
        let place = random.pick(&[any, any, any, 0, self.slots]);
        let at = self.offsets_at() + 4 * place;
        let (inside, next) = (random.below(self.edges + 3) as u32, self.word(at + 4));
        match random.below(5) {
            0 => self.change(at, |offset| offset.wrapping_add(1)),
            1 => self.change(at, |offset| offset.wrapping_sub(1)),
            2 => self.change(at, |_| inside),
            3 => self.change(at, |_| random.word()),
            _ if place < self.slots => {
                let this = self.word(at);
                self.change(at, |_| next);
                self.change(at + 4, |_| this);
            }
            _ => {}
        }
    }

    /// Children swapped, doubled or replaced.
    fn children(&mut self, random: &mut Random) {
        if self.edges == 0 {
            return;
        }
        let at = |place: usize| self.children_at() + 4 * place;
        let (place, other) = (random.below(self.edges), random.below(self.edges));
        let near = (place + 1) % self.edges;
        let (a, b) = (at(place), at(random.pick(&[near, other])));
        let (first, second) = (self.word(a), self.word(b));
        let inside = random.below(self.slots + 2) as u32;
        match random.below(4) {
            0 => {
                self.change(a, |_| second);
                self.change(b, |_| first);
            }
            1 => self.change(a, |_| second),
            2 => self.change(a, |_| inside),
            _ => self.change(a, |child| child ^ TOP_BIT),
        }
    }

    /// A word of an unused slot.
    fn unused_slot(&mut self, random: &mut Random) {
        let zero = |slot: &usize| {
            self.word(HEADER_LEN + 8 * slot) == 0 && self.word(HEADER_LEN + 8 * slot + 4) == 0
        };
        let unused: Vec<usize> = (0..self.slots).filter(zero).collect();
        let inside = random.below(self.slots) as u32;
        let word = random.pick(&[1, 2, TOP_BIT, TOP_BIT | 1, inside, TOP_BIT | inside]);
        if !unused.is_empty() {
            let slot = random.pick(&unused);
            self.change(HEADER_LEN + 8 * slot + random.pick(&[0, 4]), |_| word);
        }
    }

    fn any_byte(&mut self, random: &mut Random) {
        if self.bytes.is_empty() {
            return;
        }
        let at = random.below(self.bytes.len());
        self.bytes[at] ^= match random.below(2) {
            0 => 1 << random.below(8),
            _ => random.between(1, 255) as u8,
        };
    }
}
