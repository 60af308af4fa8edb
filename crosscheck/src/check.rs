//! The check: refusals 9 to 12 over a parsed image, and the number of pairs.

use crate::common::{is_scalar, refuse_if, Refusal, STEPS};
use crate::image::{Image, Lists, Node};
use crate::rules::{Rules, Wrong};
use std::collections::BTreeSet;

/// The number of pairs in the set of which the bytes are an image.
pub fn check(rules: Rules, bytes: &[u8]) -> Result<usize, Refusal> {
    let image = Image::parse(rules, bytes)?;
    accept(rules, &image)?;
    let ends = image.nodes.iter().filter(|node| node.is_leaf()).count();
    Ok(rules.either(ends, Wrong::UsedSlotsCounted, image.lists.children.len()))
}

/// Refusals 9 to 12.
pub fn accept(rules: Rules, image: &Image) -> Result<(), Refusal> {
    refuse_if(!labels_right(rules, &image.map.labels), 9)?;
    refuse_if(!slots_right(rules, image), 10)?;
    refuse_if(!lists_right(rules, image), 11)?;
    refuse_if(!depths_right(rules, image), 12)
}

fn labels_right(rules: Rules, labels: &[u32]) -> bool {
    let different: BTreeSet<&u32> = labels.iter().collect();
    let scalar = |label: &u32| {
        is_scalar(*label) || rules.breaks(Wrong::SurrogateListed) && *label < 0x11_0000
    };
    labels.iter().all(scalar)
        && (different.len() == labels.len() || rules.breaks(Wrong::LabelListedTwice))
}

fn slots_right(rules: Rules, image: &Image) -> bool {
    wrong_slots(rules, image).next().is_none()
}

pub fn wrong_slots(rules: Rules, image: &Image) -> impl Iterator<Item = u32> + '_ {
    let with_end = slots_with_end(image);
    let right = move |slot: usize| {
        let node = image.nodes[slot];
        let words = match slot {
            0 => node.is_zero() || rules.breaks(Wrong::Slot0Ignored),
            1 => !node.is_leaf() && node.parent() == 0,
            _ if node.parent() == 0 => unused_right(rules, node),
            _ => used_right(rules, image, slot as u32),
        };
        let end_without_flag = !node.has_leaf() && rules.breaks(Wrong::HasLeafMayBeClear);
        let flag = slot == 0 || node.has_leaf() == with_end[slot] || end_without_flag;
        words && flag
    };
    (0..image.nodes.len()).filter(move |&slot| !right(slot)).map(|slot| slot as u32)
}

fn unused_right(rules: Rules, node: Node) -> bool {
    node.is_zero() || rules.breaks(Wrong::UnusedBaseIgnored) && node.check == 0
}

/// Whether a used slot from 2 up is right, given its parent.
fn used_right(rules: Rules, image: &Image, slot: u32) -> bool {
    let parent = image.node(slot).parent();
    let inside = (parent as usize) < image.nodes.len();
    if !inside || image.node(parent).is_leaf() {
        return false;
    }
    let used = parent == 1 || image.node(parent).parent() != 0;
    let code = image.code_of_slot(slot);
    let codes =
        rules.either(image.map.len(), Wrong::LastCodeRefused, image.map.len().saturating_sub(1));
    used && code as usize <= codes && image.node(slot).is_leaf() == (code == 0)
}

/// For each slot, whether it is not a leaf and the slot at its base has it as parent.
fn slots_with_end(image: &Image) -> Vec<bool> {
    let mut with_end = vec![false; image.nodes.len()];
    for (slot, node) in image.nodes.iter().enumerate() {
        let parent = node.parent() as usize;
        let above = image.nodes.get(parent).filter(|above| !above.is_leaf());
        if above.is_some_and(|above| above.low_base() as usize == slot) {
            with_end[parent] = true;
        }
    }
    with_end
}

/// If the slots are right, the parents decide the lists. So the lists are made
/// anew and compared: equal lists have E entries, each once, under its parent, by
/// ascending code.
fn lists_right(rules: Rules, image: &Image) -> bool {
    let expected = Lists::by_parent(image);
    let falls = image.lists.offsets.windows(2).any(|pair| pair[0] > pair[1]);
    let right = |slot: u32| {
        list_agrees(rules, image.lists.of(slot), expected.of(slot))
            && (!expected.of(slot).is_empty() || may_be_childless(rules, image, slot))
    };
    !falls && (0..image.nodes.len() as u32).all(right)
}

fn list_agrees(rules: Rules, listed: &[u32], expected: &[u32]) -> bool {
    let mut rest = expected.iter();
    listed == expected
        || rules.breaks(Wrong::ChildMayBeMissing)
            && listed.iter().all(|child| rest.any(|slot| slot == child))
        || rules.breaks(Wrong::ChildListedTwice)
            && listed.iter().all(|child| expected.contains(child))
        || rules.breaks(Wrong::FallingListAccepted) && listed.iter().rev().eq(expected)
}

fn may_be_childless(rules: Rules, image: &Image, slot: u32) -> bool {
    let node = image.node(slot);
    match slot {
        0 => true,
        1 => node.low_base() == 0 || rules.breaks(Wrong::EmptyRootBaseIgnored),
        _ => node.parent() == 0 || node.is_leaf() || rules.breaks(Wrong::ChildlessSlotAccepted),
    }
}

/// Whether every used slot from 2 up reaches slot 1 within the limit. If the
/// slots are right, each chain of parents stays in used slots and ends in slot 1
/// or in a cycle.
fn depths_right(rules: Rules, image: &Image) -> bool {
    let (unknown, on_chain) = (u32::MAX, u32::MAX - 1);
    let limit = rules.either(STEPS, Wrong::OneStepTooMany, STEPS + 1);
    let limit = rules.either(limit, Wrong::OneStepTooFew, STEPS - 1);
    let mut depths = vec![unknown; image.nodes.len()];
    depths[1] = 0;
    for start in image.used_from_2() {
        let (mut chain, mut slot) = (Vec::new(), start);
        while depths[slot as usize] == unknown {
            depths[slot as usize] = on_chain;
            chain.push(slot);
            slot = image.node(slot).parent();
        }
        let mut depth = depths[slot as usize];
        if depth == on_chain {
            return rules.breaks(Wrong::CycleAccepted);
        }
        for slot in chain.into_iter().rev() {
            depth += 1;
            depths[slot as usize] = depth;
        }
    }
    image.used_from_2().all(|slot| depths[slot as usize] <= limit)
}
