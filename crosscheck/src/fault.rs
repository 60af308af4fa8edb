//! Where a fault lies: the first place at which rule 9, 10, 11 or 12 is broken.

use crate::check::{accept, wrong_slots};
use crate::common::{is_scalar, Refusal, STEPS};
use crate::image::{Image, Lists};
use crate::rules::{Rules, Wrong};
use std::collections::HashSet;
use std::iter;

/// The refusal, for 11 the part of the rule, and the place.
#[derive(Clone, Copy, Debug, PartialEq, Eq)]
pub struct Fault {
    pub refusal: u8,
    pub part: u8,
    pub place: u32,
}

/// None if the bytes are accepted, or refused by 1 to 8.
pub fn fault(rules: Rules, bytes: &[u8]) -> Option<Fault> {
    let image = Image::parse(rules, bytes).ok()?;
    let Refusal(refusal) = accept(rules, &image).err()?;
    let (part, place) = match refusal {
        9 => (0, wrong_label(rules, &image.map.labels)?),
        10 => (0, first(rules, wrong_slots(rules, &image))?),
        11 => in_lists(rules, &image),
        _ => (0, first(rules, image.used_from_2().filter(|&slot| !reaches_slot_1(&image, slot)))?),
    };
    Some(Fault { refusal, part, place })
}

fn first(rules: Rules, mut places: impl Iterator<Item = u32>) -> Option<u32> {
    if rules.breaks(Wrong::LastPlaceTold) {
        places.last()
    } else {
        places.next()
    }
}

fn wrong_label(rules: Rules, labels: &[u32]) -> Option<u32> {
    let mut before = HashSet::new();
    let wrong = |label: u32| !before.insert(label) || !is_scalar(label);
    let wrong: Vec<bool> = labels.iter().copied().map(wrong).collect();
    first(rules, (0..).zip(wrong).filter(|(_, wrong)| *wrong).map(|(place, _)| place))
}

/// The part of rule 11 that is broken, and the place. The slots are right.
fn in_lists(rules: Rules, image: &Image) -> (u8, u32) {
    let pairs = image.lists.offsets.windows(2);
    let falling = (0..).zip(pairs).filter(|(_, pair)| pair[0] > pair[1]).map(|(slot, _)| slot);
    if let Some(slot) = first(rules, falling) {
        return (1, slot);
    }
    let listed: HashSet<u32> = image.lists.children.iter().copied().collect();
    let unlisted = first(rules, image.used_from_2().filter(|slot| !listed.contains(slot)));
    if let (Some(slot), true) = (unlisted, rules.breaks(Wrong::UnlistedBeforeEntries)) {
        return (3, slot);
    }
    let entries = 0..image.lists.children.len() as u32;
    if let Some(place) = first(rules, entries.filter(|&place| entry_wrong(image, place))) {
        let start = image.lists.offsets[owner(image, place) as usize];
        return (2, rules.either(place, Wrong::EntryWithinItsList, place - start));
    }
    if let Some(slot) = unlisted {
        return (3, slot);
    }
    let expected = Lists::by_parent(image);
    let lone = |slot: &u32| !image.node(*slot).is_leaf() && expected.of(*slot).is_empty();
    first(rules, image.used_from_2().filter(lone)).map_or((5, 1), |slot| (4, slot))
}

/// The slot in whose list a place of the children lies. Offsets do not fall.
fn owner(image: &Image, place: u32) -> u32 {
    image.lists.offsets.partition_point(|offset| *offset <= place) as u32 - 1
}

/// Whether the child at a place is not one of its owner's, or its code is not above the one before.
fn entry_wrong(image: &Image, place: u32) -> bool {
    let (owner, child) = (owner(image, place), image.lists.children[place as usize]);
    let own = |slot: u32| image.nodes.get(slot as usize).is_some_and(|node| node.parent() == owner);
    let code = |slot: u32| image.node(owner).low_base() ^ slot;
    let is_first = place == image.lists.offsets[owner as usize];
    let rises = || is_first || code(child) > code(image.lists.children[place as usize - 1]);
    owner == 0 || child < 2 || !own(child) || !rises()
}

fn reaches_slot_1(image: &Image, slot: u32) -> bool {
    let way = iter::successors(Some(slot), |&slot| Some(image.node(slot).parent()));
    way.take(STEPS as usize + 1).any(|slot| slot == 1)
}
