//! Completions: the pairs below a prefix as records in lent room.

use crate::check::accept;
use crate::common::{refuse_if, Refusal, KEY_LABELS};
use crate::image::Image;
use crate::rules::{Rules, Wrong};
use crate::search::open;
use std::cmp::Reverse;

/// How many records were written, and whether one had no room.
#[derive(Clone, Copy, Debug, Default, PartialEq, Eq)]
pub struct Completed {
    pub count: u32,
    pub stopped: bool,
}

/// Gives the first of refusals 1 to 8, 13, 9 to 12 and 14, in this order, or writes the records.
pub fn complete(
    rules: Rules,
    image: &[u8],
    prefix: &[u8],
    room: &mut [u8],
) -> Result<Completed, Refusal> {
    let (image, prefix) = open(rules, image, prefix)?;
    refuse_if(room.len() < 5 && rules.breaks(Wrong::RoomBeforeImage), 14)?;
    accept(rules, &image)?;
    refuse_if(room.len() < 5, 14)?;
    Ok(image.complete(rules, &prefix, room))
}

/// Lent room being filled from the front.
struct Records<'a> {
    room: &'a mut [u8],
    filled: usize,
    completed: Completed,
}

impl Records<'_> {
    /// Writes a record if it has room. Returns whether the listing continues.
    fn add(&mut self, rules: Rules, key: &[u32], value: u32) -> bool {
        let mut record = vec![key.len() as u8];
        record.extend(key.iter().chain(&[value]).flat_map(|number| number.to_be_bytes()));
        let needed = self.filled + record.len() + rules.either(0, Wrong::RecordWantsSpareByte, 1);
        if needed > self.room.len() {
            self.completed.stopped = rules.keeps(Wrong::StopNotTold);
            return rules.breaks(Wrong::GoesOnAfterStop);
        }
        self.room[self.filled..][..record.len()].copy_from_slice(&record);
        self.filled += record.len();
        self.completed.count += 1;
        true
    }

    fn finish(self, rules: Rules) -> Completed {
        self.room[0] = 1;
        self.room[1..5].copy_from_slice(&self.completed.count.to_be_bytes());
        if rules.breaks(Wrong::RoomBehindCleared) {
            self.room[self.filled..].fill(0);
        }
        self.completed
    }
}

/// A step still to take: to this slot by this code, after `before` labels.
struct Step {
    slot: u32,
    code: u32,
    before: usize,
}

impl Image {
    /// Lists the completions of a prefix of an accepted image into room of 5 bytes or more.
    pub fn complete(&self, rules: Rules, prefix: &[u32], room: &mut [u8]) -> Completed {
        let mut records = Records { room, filled: 5, completed: Completed::default() };
        let start = self.slot_of(rules, prefix).filter(|_| prefix.len() <= KEY_LABELS);
        let mut key = rules.either(prefix, Wrong::PrefixLabelsLeftOut, &[]).to_vec();
        let mut ahead = Vec::new();
        if let Some(slot) = start {
            self.push_children(rules, slot, key.len(), &mut ahead);
        }
        while let Some(Step { slot, code, before }) = ahead.pop() {
            key.truncate(before);
            if code != 0 {
                key.push(self.map.label(code));
                self.push_children(rules, slot, key.len(), &mut ahead);
            } else if !records.add(rules, &key, self.node(slot).low_base()) {
                break;
            }
        }
        records.finish(rules)
    }

    /// Pushes the children so that the smallest code is popped first.
    fn push_children(&self, rules: Rules, slot: u32, before: usize, ahead: &mut Vec<Step>) {
        let from = ahead.len();
        let base = self.node(slot).low_base();
        let children = self.lists.of(slot).iter().rev();
        ahead.extend(children.map(|&slot| Step { slot, code: base ^ slot, before }));
        self.misorder(rules, &mut ahead[from..]);
    }

    /// Puts the steps into the order of a wrong variant; document 01 keeps them as they are.
    fn misorder(&self, rules: Rules, pushed: &mut [Step]) {
        let end_first = pushed.last().is_some_and(|step| step.code == 0);
        if rules.breaks(Wrong::EndAfterLongerKeys) && end_first {
            pushed.rotate_right(1);
        }
        if rules.breaks(Wrong::ChildrenBySlot) {
            pushed.sort_by_key(|step| Reverse(step.slot));
        }
        if rules.breaks(Wrong::ChildrenByLabel) {
            let label = |code: u32| (code > 0).then(|| self.map.label(code));
            pushed.sort_by_key(|step| Reverse(label(step.code)));
        }
    }
}
