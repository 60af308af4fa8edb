//! A romaji table of 300 keys with one to four letters and kana of one or two
//! labels, and texts to type with it.

use crate::random::Random;
use crosscheck::common::query_of;
use crosscheck::keylist::Key;
use std::collections::BTreeMap;

const VOWELS: &str = "aiueo";
/// What stands before a vowel, and the kana with each vowel.
const ROWS: [(&str, &str); 15] = [
    ("", "あいうえお"),
    ("k", "かきくけこ"),
    ("s", "さしすせそ"),
    ("t", "たちつてと"),
    ("n", "なにぬねの"),
    ("h", "はひふへほ"),
    ("m", "まみむめも"),
    ("r", "らりるれろ"),
    ("g", "がぎぐげご"),
    ("z", "ざじずぜぞ"),
    ("d", "だぢづでど"),
    ("b", "ばびぶべぼ"),
    ("p", "ぱぴぷぺぽ"),
    ("l", "ぁぃぅぇぉ"),
    ("x", "ぁぃぅぇぉ"),
];
/// Consonants that may be doubled.
const DOUBLED: &str = "ksthmrgzdbp";
/// The small kana after a kana with each vowel, or a space for none, and what stands before the
/// vowel with that kana.
const WITH_SMALL: [(&str, &str); 4] = [
    ("ゃぃゅぇょ", "kyき syし tyち nyに hyひ myみ ryり gyぎ zyじ jyじ dyぢ byび pyぴ cyち fyふ"),
    ("ゃ ゅぇょ", "shし chち jじ"),
    ("ぁぃ ぇぉ", "fふ vゔ tsつ"),
    ("ぁぃぅぇぉ", "thて dhで whう kwく gwぐ qく"),
];
/// Whole keys with their kana.
const OTHERS: &str =
    "yaや yuゆ yoよ waわ wiうぃ weうぇ woを nん nnん n'ん xnん xtuっ xtsuっ ltuっ \
                      ltsuっ xyaゃ xyuゅ xyoょ lyaゃ lyuゅ lyoょ xwaゎ lwaゎ xkaヵ xkeヶ ttsuっつ \
                      cchiっち sshiっし -ー ,、 .。 /・ [「 ]」 ~〜";
/// One part of a text in so many has no key.
const PASSING: usize = 20;

pub struct Romaji {
    /// In ascending order.
    pub keys: Vec<Key>,
    /// The text of each key, in the same order.
    pub kana: Vec<u8>,
}

impl Romaji {
    pub fn new() -> Romaji {
        let labels = |text: &str| text.chars().map(u32::from).collect::<Key>();
        let table = table();
        let mut kana = Vec::new();
        for text in table.values().map(|text| labels(text)) {
            kana.push(text.len() as u8);
            kana.extend(query_of(&text));
        }
        Romaji { keys: table.keys().map(|key| labels(key)).collect(), kana }
    }

    /// Keys and spaces, cut after so many bytes.
    pub fn text(&self, random: &mut Random, bytes: usize) -> Vec<u8> {
        let mut text = Vec::new();
        while text.len() < bytes {
            if random.one_in(PASSING) {
                text.push(b' ');
            }
            text.extend(random.pick(&self.keys).iter().map(|label| *label as u8));
        }
        text.truncate(bytes);
        text
    }
}

/// The kana of each key.
fn table() -> BTreeMap<String, String> {
    let mut table = BTreeMap::new();
    for (front, row) in ROWS {
        for (vowel, kana) in VOWELS.chars().zip(row.chars()) {
            table.insert(format!("{front}{vowel}"), kana.to_string());
            if !front.is_empty() && DOUBLED.contains(front) {
                table.insert(format!("{front}{front}{vowel}"), format!("っ{kana}"));
            }
        }
    }
    for (small, fronts) in WITH_SMALL {
        for (front, kana) in fronts.split(' ').map(key_and_kana) {
            for (vowel, small) in VOWELS.chars().zip(small.chars()) {
                table
                    .insert(format!("{front}{vowel}"), format!("{kana}{small}").trim().to_string());
            }
        }
    }
    table.extend(OTHERS.split(' ').map(key_and_kana).map(|(key, kana)| (key.into(), kana.into())));
    table
}

/// The letters at the front of an entry, and the kana behind them.
fn key_and_kana(entry: &str) -> (&str, &str) {
    let kana = entry.find(|letter: char| !letter.is_ascii());
    entry.split_at(kana.expect("every entry has kana"))
}

#[cfg(test)]
mod tests {
    use super::*;

    #[test]
    fn the_table_has_300_short_keys_with_short_texts() {
        let table = table();
        assert_eq!(table.len(), 300);
        assert!(table.keys().all(|key| (1..=4).contains(&key.len()) && key.is_ascii()));
        assert!(table.values().all(|kana| (1..=2).contains(&kana.chars().count())));
        assert_eq!(
            ["n", "na", "kka", "shi"].map(|key| &table[key][..]),
            ["ん", "な", "っか", "し"]
        );
    }

    #[test]
    fn keys_ascend_and_texts_have_their_length() {
        let romaji = Romaji::new();
        assert!(romaji.keys.windows(2).all(|pair| pair[0] < pair[1]));
        assert_eq!(romaji.text(&mut Random::new(7), 1_000).len(), 1_000);
    }
}
