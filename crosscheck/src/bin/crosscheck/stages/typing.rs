//! Romaji typing: tables over few letters, typed at once and in parts, with kana
//! tables and rooms of every length, and rests kept from anywhere.

use crate::call::Call;
use crate::comparison::Comparison;
use crate::keysets::{all_strings, keys_over};
use crate::placer::Pairs;
use crate::tables::{low_bytes, state_of, RomajiTable};
use crosscheck::common::KEY_LABELS;
use crosscheck::keylist::Key;
use crosscheck::random::Random;
use crosscheck::romaji::{KEPT_BYTES, STATE_BYTES};

const FRESH: [u8; STATE_BYTES] = [0; STATE_BYTES];

pub fn run(comparison: &mut Comparison, random: &mut Random, amount: usize) {
    every_short_text(comparison, random);
    for _ in 0..1_500 * amount {
        let table = RomajiTable::any(random);
        any_calls(comparison, random, &table);
        in_parts(comparison, random, &table);
        from_another_image(comparison, random, &table);
        if random.one_in(4) {
            let (state, typed) = (state_of(&any_kept(random, &table)), table.any_text(random, 3));
            every_room(comparison, &table, &state, &typed);
            every_table_length(comparison, &table, &state, &typed);
        }
    }
    for _ in 0..40 * amount {
        key_at_the_limit(comparison, random);
    }
    many_keys(comparison, random);
}

/// The answer of a call, the next state, and what went out.
#[derive(PartialEq, Eq)]
pub struct After {
    answer: u64,
    pub state: Vec<u8>,
    out: Vec<u8>,
}

impl After {
    fn new(comparison: &mut Comparison, answer: u64) -> After {
        let (state, room) = comparison.left();
        let out = room.into_iter().take(4 * (answer as u32) as usize).collect();
        After { answer, state, out }
    }
}

pub fn type_text(
    comparison: &mut Comparison,
    table: &RomajiTable,
    state: &[u8],
    typed: &[u8],
    room: usize,
) -> After {
    let RomajiTable { image, kana, .. } = table;
    let answer = comparison.call(Call::Type { image, kana, state, typed, room });
    After::new(comparison, answer)
}

pub fn finish(
    comparison: &mut Comparison,
    table: &RomajiTable,
    state: &[u8],
    room: usize,
) -> After {
    let RomajiTable { image, kana, .. } = table;
    let answer = comparison.call(Call::Finish { image, kana, state, room });
    After::new(comparison, answer)
}

/// A few bytes that a table's keys may begin with; few enough to be kept.
fn any_kept(random: &mut Random, table: &RomajiTable) -> Vec<u8> {
    let length = random.pick(&[0, 0, 1, 1, 2, 3, KEPT_BYTES]);
    let mut kept = table.any_text(random, length);
    kept.truncate(length);
    kept
}

/// Every set of keys of one and two letters, with every text of a few letters kept or typed.
fn every_short_text(comparison: &mut Comparison, random: &mut Random) {
    let keys: Vec<Key> = (1..=2).flat_map(|length| all_strings(&[0x61, 0x6E], length)).collect();
    let texts: Vec<Vec<u8>> = (0..=3)
        .flat_map(|length| all_strings(&[0x61, 0x6E, 0x78], length))
        .map(|text| low_bytes(&text))
        .collect();
    let short: Vec<&Vec<u8>> = texts.iter().filter(|text| text.len() < 3).collect();
    for chosen in 0..1 << keys.len() {
        let in_set = |(value, _): &(u32, &Key)| chosen >> value & 1 == 1;
        let pairs = (0..).zip(&keys).filter(in_set).map(|(value, key)| (key.clone(), value));
        let table = RomajiTable::of(random, &pairs.collect(), keys.len());
        for typed in &texts {
            finish(comparison, &table, &state_of(typed), 60);
            for kept in &short {
                type_text(comparison, &table, &state_of(kept), typed, 60);
            }
        }
    }
}

/// Texts typed and then finished, with any room.
fn any_calls(comparison: &mut Comparison, random: &mut Random, table: &RomajiTable) {
    for _ in 0..5 {
        let length = random.pick(&[0, 1, 1, 2, 5, 12, 40]);
        let (state, typed) = (state_of(&any_kept(random, table)), table.any_text(random, length));
        let needed = table.needed(&state, &typed);
        let any = random.below(needed + 1);
        let room = random.pick(&[needed, needed + 3, needed + 9, needed.saturating_sub(1), any]);
        let after = type_text(comparison, table, &state, &typed, room);
        let room = random.pick(&[0, 4, 12, 100]);
        finish(comparison, table, &after.state, room);
    }
}

/// Typing in parts must be typing at once, wherever the text is cut, and finishing
/// after it must be finishing the whole text.
fn in_parts(comparison: &mut Comparison, random: &mut Random, table: &RomajiTable) {
    let length = random.pick(&[1, 2, 5, 12, 40]);
    let mut text = table.any_text(random, length);
    text.truncate(KEPT_BYTES);
    let room = table.enough(text.len());
    let whole = type_text(comparison, table, &FRESH, &text, room);
    if whole.answer >> 40 != 0 {
        return;
    }
    let (kept, typed) = text.split_at(random.below(text.len() + 1));
    let same = type_text(comparison, table, &state_of(kept), typed, room) == whole;
    comparison.require(same, "what is kept does not read as typed just before");
    let (state, mut out) = part_by_part(comparison, random, table, &text);
    let same = state == whole.state && out == whole.out;
    comparison.require(same, "typing in parts is not typing at once");
    out.extend(finish(comparison, table, &state, room).out);
    let same = out == finish(comparison, table, &state_of(&text), room).out;
    comparison.require(same, "finishing after typing is not finishing the whole text");
}

/// Types a text in parts, some of them empty. Returns the state at the end and all that went out.
fn part_by_part(
    comparison: &mut Comparison,
    random: &mut Random,
    table: &RomajiTable,
    text: &[u8],
) -> (Vec<u8>, Vec<u8>) {
    let (mut state, mut out, mut rest) = (FRESH.to_vec(), Vec::new(), text);
    let longest = random.pick(&[1, 3, 20]);
    while !rest.is_empty() {
        let (part, behind) = rest.split_at(random.below(longest.min(rest.len()) + 1));
        let after = type_text(comparison, table, &state, part, table.enough(text.len()));
        (state, rest) = (after.state, behind);
        out.extend(after.out);
    }
    (state, out)
}

/// What another table kept, read by this one.
fn from_another_image(comparison: &mut Comparison, random: &mut Random, table: &RomajiTable) {
    let other = RomajiTable::any(random);
    let mut text = other.any_text(random, 1);
    text.pop();
    let state = type_text(comparison, &other, &FRESH, &text, other.enough(text.len())).state;
    let typed = table.any_text(random, 1);
    let room = table.enough(KEPT_BYTES + typed.len());
    type_text(comparison, table, &state, &[], room);
    type_text(comparison, table, &state, &typed, room);
    finish(comparison, table, &state, room);
}

/// Room of every length from 0 to past what is needed.
pub fn every_room(comparison: &mut Comparison, table: &RomajiTable, state: &[u8], typed: &[u8]) {
    let needed = table.needed(state, typed).min(100);
    for room in 0..=needed + 5 {
        type_text(comparison, table, state, typed, room);
        finish(comparison, table, state, room);
    }
}

/// The kana table cut at every length, or at the last 100 of them.
pub fn every_table_length(
    comparison: &mut Comparison,
    table: &RomajiTable,
    state: &[u8],
    typed: &[u8],
) {
    let (image, room) = (&table.image, table.enough(typed.len()));
    for length in table.kana.len().saturating_sub(100)..=table.kana.len() {
        let kana = &table.kana[..length];
        comparison.call(Call::Type { image, kana, state, typed, room });
        comparison.call(Call::Finish { image, kana, state, room });
    }
}

/// A key as long as a key may be, with some of its front parts, typed up to it and past it.
fn key_at_the_limit(comparison: &mut Comparison, random: &mut Random) {
    let letters = random.pick(&[&[0x61][..], &[0x61, 0x6E], &[0x61, 0x3042]]);
    let key: Key = (0..KEY_LABELS).map(|_| random.pick(letters)).collect();
    let mut pairs = Pairs::from([(key.clone(), 0)]);
    for front in [1, 2, KEY_LABELS - 2, KEY_LABELS - 1] {
        if random.one_in(2) {
            pairs.insert(key[..front].to_vec(), front as u32 % 3);
        }
    }
    let table = RomajiTable::of(random, &pairs, 3);
    let text = [low_bytes(&key), low_bytes(&key)].concat();
    for length in (KEY_LABELS - 3..KEY_LABELS + 3).chain([2 * KEY_LABELS - 1]) {
        for kept in [0, 1, KEPT_BYTES - 1, KEPT_BYTES] {
            let (state, room) = (state_of(&text[..kept]), table.enough(length));
            let typed = &text[kept..length.max(kept)];
            let after = type_text(comparison, &table, &state, typed, room);
            finish(comparison, &table, &after.state, room);
        }
    }
}

/// Many keys and long texts.
fn many_keys(comparison: &mut Comparison, random: &mut Random) {
    let bytes: Vec<u32> = (0..=255).collect();
    let mut keys = keys_over(random, &bytes, 1_500, 3);
    keys.retain(|key| !key.is_empty());
    let rows = keys.len();
    let table = RomajiTable::of(random, &keys.into_iter().zip(0..).collect(), rows);
    for length in [100, 2_000, 70_000] {
        let typed = table.any_text(random, length);
        let needed = table.needed(&FRESH, &typed);
        for room in [needed - 1, needed, needed + 70] {
            type_text(comparison, &table, &FRESH, &typed, room);
        }
    }
}
