//! The examples of document 02's request 1, and what lies around them.

use super::examples::changed;
use super::typing::{every_room, every_table_length, finish, type_text};
use crate::comparison::Comparison;
use crate::tables::{state_of, RomajiTable};
use crosscheck::builder::image_of;
use crosscheck::common::KEY_LABELS;
use crosscheck::image::{Image, TOP_BIT};
use crosscheck::keylist::{to_bytes, Key};
use crosscheck::rules::Rules;

/// Keys in ascending order, each with its kana.
type Rows = [(&'static str, &'static str)];

const N_NA: &Rows = &[("n", "ん"), ("na", "な")];
/// A text without labels, one with two, and a key that goes on where another ends.
const MORE: &Rows = &[("a", "あ"), ("b", ""), ("kka", "っか"), ("kyab", "きゃ"), ("y", "や")];
/// A key that cannot be typed; the lowest byte of its last label is a letter.
const NOT_TYPED: &Rows = &[("k", "か"), ("k\u{161}", "き"), ("n", "ん"), ("nyu", "にゅ")];
const WITH_EMPTY_KEY: &Rows = &[("", "?"), ("n", "ん"), ("na", "な")];

const TEXTS: [&[u8]; 9] =
    [b"", b"n", b"na", b"nn-", b"nyx", b"bk", b"kkakyab", b"kyaky\xFF", b"a\x80"];
const KEPT: [&[u8]; 4] = [b"", b"n", b"k", b"kya"];

pub fn run(comparison: &mut Comparison) {
    for rows in [N_NA, MORE, NOT_TYPED, WITH_EMPTY_KEY] {
        let table = table_of(&built(rows), rows);
        for (kept, typed) in KEPT.iter().flat_map(|kept| TEXTS.map(|text| (*kept, text))) {
            every_room(comparison, &table, &state_of(kept), typed);
        }
        every_table_length(comparison, &table, &state_of(b"n"), b"a");
    }
    sparse_values(comparison);
    limits(comparison);
    wrong_images(comparison);
}

fn labels(text: &str) -> Key {
    text.chars().map(u32::from).collect()
}

fn built(rows: &Rows) -> Image {
    let keys: Vec<Key> = rows.iter().map(|(key, _)| labels(key)).collect();
    image_of(Rules::DOCUMENT, &to_bytes(&keys), 400).expect("the example builds")
}

fn table_of(image: &Image, rows: &Rows) -> RomajiTable {
    let keys = rows.iter().map(|(key, _)| labels(key)).collect();
    let texts: Vec<Key> = rows.iter().map(|(_, text)| labels(text)).collect();
    RomajiTable::new(image.to_bytes(), keys, &texts)
}

/// Values 2 and 0, with a text for each number from 0 to 3, and with texts that are no scalar values.
fn sparse_values(comparison: &mut Comparison) {
    let mut image = built(N_NA);
    let ends = image.nodes.iter_mut().filter(|node| node.is_leaf());
    ends.zip([2, 0]).for_each(|(end, value)| end.base = TOP_BIT | value);
    let table = table_of(&image, &MORE[..4]);
    every_table_length(comparison, &table, &state_of(b""), b"na-n");
    every_table_length(comparison, &table, &state_of(b""), b"-");
    let texts = [vec![0xD800], vec![], vec![u32::MAX]];
    let table = RomajiTable::new(image.to_bytes(), table.keys, &texts);
    every_room(comparison, &table, &state_of(b"n"), b"ann");
}

/// The longest key and the longest rest.
fn limits(comparison: &mut Comparison) {
    let keys = vec![vec![0x61; KEY_LABELS]];
    let image = image_of(Rules::DOCUMENT, &to_bytes(&keys), 400);
    let image = image.expect("a key at the limit builds").to_bytes();
    let table = RomajiTable::new(image, keys, &[labels("あ")]);
    let text = [b'a'; 2 * KEY_LABELS];
    for length in KEY_LABELS - 2..KEY_LABELS + 2 {
        let after = type_text(comparison, &table, &state_of(b""), &text[..length], 4 * length);
        type_text(comparison, &table, &after.state, b"a", 9);
        finish(comparison, &table, &after.state, 4 * KEY_LABELS);
    }
}

/// P7 to P10, with a table that is long enough and with shorter ones.
fn wrong_images(comparison: &mut Comparison) {
    for image in changed() {
        let table = table_of(&image, N_NA);
        every_table_length(comparison, &table, &state_of(b"n"), b"a");
    }
}
