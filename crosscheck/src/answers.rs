//! The functions in the archive's form: bytes and lent memory in, one number out.
//! That number is refusal * 2^40 plus what the function found. A typing position
//! is passed as a list, because the header does not specify the archive's number.

use crate::builder;
use crate::check;
use crate::common::{Refusal, KEY_LABELS};
use crate::completion;
use crate::entries::{self, Part, Refused};
use crate::fault;
use crate::highest;
use crate::image::Image;
use crate::position::{replay, Move, Opened, Position};
use crate::romaji::{self, Press};
use crate::rules::{Rules, Wrong};
use crate::search::{self, Case};
use crate::why::{self, Reason, Why};
use std::iter;

const REFUSAL: u64 = 1 << 40;
/// Longer keys exist, or a listing stopped.
const MORE: u64 = 1 << 33;
const VALUE: u64 = 1 << 32;
/// The parts of rule 11, and the reasons why a word is missing, both numbered from 1.
const PART: u64 = 1 << 34;
/// Words of `places`: a length and a value for each length from 0 to the limit of a key.
pub const PLACE_WORDS: usize = 2 * (KEY_LABELS + 1);

fn number<T>(result: Result<T, Refusal>, found: impl FnOnce(T) -> u64) -> u64 {
    match result {
        Ok(answer) => found(answer),
        Err(Refusal(number)) => u64::from(number) * REFUSAL,
    }
}

/// The number of a value or none.
pub fn value_number(value: Option<u32>) -> u64 {
    value.map_or(0, |value| VALUE + u64::from(value))
}

fn flag(more: bool) -> u64 {
    if more {
        MORE
    } else {
        0
    }
}

pub fn check(rules: Rules, image: &[u8]) -> u64 {
    number(check::check(rules, image), |pairs| pairs as u64)
}

pub fn fault(rules: Rules, image: &[u8]) -> u64 {
    fault::fault(rules, image).map_or(0, |fault| {
        u64::from(fault.refusal) * REFUSAL + u64::from(fault.part) * PART + u64::from(fault.place)
    })
}

pub fn highest(rules: Rules, image: &[u8]) -> u64 {
    number(highest::highest(rules, image), value_number)
}

pub fn exact(rules: Rules, image: &[u8], query: &[u8]) -> u64 {
    number(search::lookup(rules, image, query), exact_number)
}

pub fn probe(rules: Rules, image: &[u8], query: &[u8]) -> u64 {
    number(search::lookup(rules, image, query), probe_number)
}

/// The number that C's exact answers in a case of lookup.
pub fn exact_number(case: Case) -> u64 {
    value_number(case.value())
}

/// The number that C's probe answers in a case of lookup.
pub fn probe_number(case: Case) -> u64 {
    flag(case.longer_keys()) + exact_number(case)
}

pub fn position_probe(rules: Rules, image: &Opened, position: &Position) -> u64 {
    number(position.lookup(rules, image), probe_number)
}

/// What a fresh position answers over the first image, and what the position answers after each
/// move over the image whose index the move has.
pub fn moves(rules: Rules, images: &[&[u8]], moves: &[(usize, Move)]) -> Vec<u64> {
    let images: Vec<Opened> = images.iter().map(|image| Image::parse(rules, image)).collect();
    let over = iter::once(0).chain(moves.iter().map(|(over, _)| *over));
    let positions = replay(rules, &images, moves);
    positions.iter().zip(over).map(|(at, over)| position_probe(rules, &images[over], at)).collect()
}

pub fn longest(rules: Rules, image: &[u8], query: &[u8]) -> u64 {
    number(search::longest(rules, image, query), |front| front.len() as u64 / 4)
}

pub fn why(rules: Rules, image: &[u8], query: &[u8]) -> u64 {
    let told = why::why(rules, image, query);
    let with_refusal = rules.breaks(Wrong::RefusedHasReason) && told.is_err();
    let reason = if with_refusal { why_number(Reason::NoKeyEnds.at(0)) } else { 0 };
    reason + number(told, why_number)
}

/// The number of a reason with its place.
pub fn why_number(why: Why) -> u64 {
    why.reason as u64 * PART + why.place as u64
}

/// Writes a pair of length and value for each possible length into `places`, as many words as fit.
pub fn prefixes(rules: Rules, image: &[u8], query: &[u8], places: &mut [u32]) -> u64 {
    let found = search::prefixes(rules, image, query);
    if found.is_err() && rules.breaks(Wrong::PlacesClearedByRefusal) {
        places.fill(0);
    }
    number(found, |matches| {
        let mut words: Vec<u32> =
            matches.iter().flat_map(|found| [found.0 as u32, found.1]).collect();
        if rules.keeps(Wrong::PlacesBehindStay) {
            words.resize(PLACE_WORDS, 0);
        }
        if places.len() >= PLACE_WORDS || rules.keeps(Wrong::FewPlacesStay) {
            places.iter_mut().zip(words).for_each(|(place, word)| *place = word);
        }
        matches.len() as u64
    })
}

pub fn complete(rules: Rules, image: &[u8], prefix: &[u8], room: &mut [u8]) -> u64 {
    let completed = completion::complete(rules, image, prefix, room);
    if completed.is_err() && rules.breaks(Wrong::RoomClearedByRefusal) {
        room.fill(0);
    }
    number(completed, |completed| flag(completed.stopped) + u64::from(completed.count))
}

pub fn romaji_type(
    rules: Rules,
    image: &[u8],
    kana: &[u8],
    typed: &[u8],
    lent: romaji::Lent,
) -> u64 {
    romaji_number(romaji::press(rules, image, kana, Press::Type(typed), lent))
}

pub fn romaji_finish(rules: Rules, image: &[u8], kana: &[u8], lent: romaji::Lent) -> u64 {
    romaji_number(romaji::press(rules, image, kana, Press::Finish, lent))
}

/// The number of labels that went out counts modulo 2^32.
pub fn romaji_number(went_out: Result<usize, Refusal>) -> u64 {
    number(went_out, |labels| u64::from(labels as u32))
}

pub fn table_check(rules: Rules, image: &[u8], table: &[u8]) -> u64 {
    table_number(entries::check(rules, image, table))
}

/// The number that the check of an entry table answers.
pub fn table_number(checked: Result<usize, Refused>) -> u64 {
    number(checked.map_err(Refused::refusal), |entries| entries as u64)
}

/// Puts the place of the part's first entry into word 0 of `first`.
pub fn entries(rules: Rules, image: &[u8], query: &[u8], table: &[u8], first: &mut [u32]) -> u64 {
    let found = entries::lookup(rules, image, query, table);
    put_place(rules, &found, first);
    part_number(rules, found)
}

/// Writes nothing after a refusal.
pub fn put_place(rules: Rules, found: &Result<Part, Refused>, first: &mut [u32]) {
    let place = match found {
        Ok(Some(part)) if !part.is_empty() || rules.breaks(Wrong::EmptyPartHasOffset) => {
            Some(part.start as u32)
        }
        Ok(None) if rules.breaks(Wrong::FirstLeftWithoutValue) => None,
        Ok(_) => Some(0),
        Err(_) => rules.either(None, Wrong::FirstWrittenByRefusal, Some(0)),
    };
    let unit = rules.either(1, Wrong::FirstInBytes, entries::ENTRY_BYTES as u32);
    if let (Some(place), Some((word, others))) = (place, first.split_first_mut()) {
        *word = place.wrapping_mul(unit);
        if rules.breaks(Wrong::FirstClearsOthers) {
            others.fill(0);
        }
    }
}

/// The number that the lookup of entries answers.
pub fn part_number(rules: Rules, found: Result<Part, Refused>) -> u64 {
    let beyond = found == Err(Refused::Beyond);
    let told = if beyond && rules.breaks(Wrong::BeyondTellsValue) { VALUE } else { 0 };
    let unit = rules.either(1, Wrong::PartBytesCounted, entries::ENTRY_BYTES);
    let part = |part: Part| match part {
        Some(part) if part.is_empty() && rules.breaks(Wrong::EmptyPartNoValue) => 0,
        part => value_number(part.map(|part| (unit * part.len()) as u32)),
    };
    told + number(found.map_err(Refused::refusal), part)
}

pub fn build(rules: Rules, keys: &[u8], work: &mut [u32], out: &mut [u8]) -> u64 {
    number(builder::build(rules, keys, work, out), |length| length as u64)
}
