//! The examples of request 1 of document 02 and others, as tests of this implementation.

use crate::answers::{romaji_finish, romaji_type};
use crate::builder::image_of;
use crate::common::{labels_in, KEY_LABELS};
use crate::image::Image;
use crate::keylist::to_bytes;
use crate::romaji::{Lent, STATE_BYTES};
use crate::rules::Rules;

const DOCUMENT: Rules = Rules::DOCUMENT;
const N_NA: [(&str, &str); 2] = [("n", "ん"), ("na", "な")];

/// A terminal with its image, its kana table and its state.
struct Terminal {
    image: Vec<u8>,
    kana: Vec<u8>,
    state: [u8; STATE_BYTES],
    room: usize,
}

impl Terminal {
    /// For keys in ascending order, each with its kana.
    fn new(table: &[(&str, &str)]) -> Terminal {
        let mut kana = Vec::new();
        for (_, text) in table {
            kana.push(text.chars().count() as u8);
            kana.extend(text.chars().flat_map(|label| u32::from(label).to_be_bytes()));
        }
        let keys: Vec<&str> = table.iter().map(|(key, _)| *key).collect();
        Terminal { image: image(&keys).to_bytes(), kana, state: [0; STATE_BYTES], room: 100 }
    }

    fn types(&mut self, typed: &[u8]) -> Result<String, u64> {
        let mut room = vec![0xEE; self.room];
        let lent = Lent { state: &mut self.state, room: &mut room };
        went_out(romaji_type(DOCUMENT, &self.image, &self.kana, typed, lent), &room)
    }

    fn finishes(&mut self) -> Result<String, u64> {
        let mut room = vec![0xEE; self.room];
        let lent = Lent { state: &mut self.state, room: &mut room };
        went_out(romaji_finish(DOCUMENT, &self.image, &self.kana, lent), &room)
    }

    /// What waits. The rest of the state has to be zeros.
    fn waits(&self) -> &str {
        let (kept, zeros) = self.state[1..].split_at(usize::from(self.state[0]));
        assert!(zeros.iter().all(|byte| *byte == 0));
        std::str::from_utf8(kept).expect("only letters were typed")
    }
}

fn image(keys: &[&str]) -> Image {
    let labels = |key: &&str| key.chars().map(u32::from).collect();
    let keys: Vec<Vec<u32>> = keys.iter().map(labels).collect();
    image_of(DOCUMENT, &to_bytes(&keys), 1_000).expect("the list builds")
}

/// The labels that went out, or the refusal; the rest of the room, or all of it, is as it was.
fn went_out(answer: u64, room: &[u8]) -> Result<String, u64> {
    let (out, untouched) = room.split_at(4 * (answer & 0xFFFF_FFFF) as usize);
    assert!(untouched.iter().all(|byte| *byte == 0xEE));
    match answer >> 40 {
        0 => Ok(labels_in(out).into_iter().filter_map(char::from_u32).collect()),
        refusal => Err(refusal),
    }
}

fn out(text: &str) -> Result<String, u64> {
    Ok(text.to_string())
}

#[test]
fn n_and_na() {
    let mut terminal = Terminal::new(&N_NA);
    assert_eq!((terminal.types(b"n"), terminal.waits()), (out(""), "n"));
    assert_eq!((terminal.types(b"a"), terminal.waits()), (out("な"), ""));
    assert_eq!((terminal.types(b"n"), terminal.waits()), (out(""), "n"));
    assert_eq!((terminal.finishes(), terminal.waits()), (out("ん"), ""));
    assert_eq!((terminal.types(b"na"), terminal.waits()), (out("な"), ""));
    assert_eq!((terminal.finishes(), terminal.waits()), (out(""), ""));
}

#[test]
fn longest_keys_and_passing_bytes() {
    let mut terminal = Terminal::new(&N_NA);
    assert_eq!((terminal.types(b"nn"), terminal.waits()), (out("ん"), "n"));
    assert_eq!((terminal.types(b"-nax\xFFn"), terminal.waits()), (out("ん-なxÿ"), "n"));
    let mut terminal = Terminal::new(&[("b", "び"), ("kka", "っか"), ("kyabc", "きゃ")]);
    assert_eq!((terminal.types(b"kyab"), terminal.waits()), (out(""), "kyab"));
    assert_eq!((terminal.types(b"k"), terminal.waits()), (out("kyaび"), "k"));
    assert_eq!((terminal.types(b"ka"), terminal.waits()), (out("っか"), ""));
}

#[test]
fn keys_that_cannot_be_typed_still_make_a_rest_wait() {
    let mut terminal = Terminal::new(&[("k", "か"), ("kあ", "き")]);
    assert_eq!((terminal.types(b"k"), terminal.waits()), (out(""), "k"));
    assert_eq!((terminal.types(b"k"), terminal.waits()), (out("か"), "k"));
}

#[test]
fn a_rest_from_another_image() {
    let mut terminal = Terminal::new(&[("kyaa", "きゃあ")]);
    assert_eq!((terminal.types(b"kya"), terminal.waits()), (out(""), "kya"));
    terminal =
        Terminal { state: terminal.state, ..Terminal::new(&[("ya", "や"), ("yaa", "やあ")]) };
    assert_eq!((terminal.types(b""), terminal.waits()), (out("k"), "ya"));
    assert_eq!((terminal.finishes(), terminal.waits()), (out("や"), ""));
}

#[test]
fn the_longest_rest_and_the_longest_key() {
    let (key, rest) = ("a".repeat(KEY_LABELS), "a".repeat(KEY_LABELS - 1));
    let mut terminal = Terminal::new(&[(&key, "あ")]);
    assert_eq!((terminal.types(rest.as_bytes()), terminal.waits()), (out(""), &rest[..]));
    assert_eq!((terminal.types(b"a"), terminal.waits()), (out("あ"), ""));
}

#[test]
fn refusals() {
    let mut terminal = Terminal::new(&N_NA);
    terminal.types(b"n").expect("nothing is refused");
    (terminal.room, terminal.kana) = (3, terminal.kana[..9].to_vec());
    assert_eq!((terminal.types(b"a"), terminal.waits()), (Err(24), "n"));
    assert_eq!((terminal.finishes(), terminal.waits()), (Err(24), "n"));
    terminal.kana = Terminal::new(&N_NA).kana;
    assert_eq!((terminal.types(b"a"), terminal.waits()), (Err(29), "n"));
    assert_eq!((terminal.types(b"n"), terminal.waits()), (Err(29), "n"));
    assert_eq!((terminal.types(b""), terminal.waits()), (out(""), "n"));
    terminal.image = image(&["", "n"]).to_bytes();
    assert_eq!((terminal.types(b"a"), terminal.waits()), (Err(25), "n"));
    terminal.image = image(&["", "n", "na"]).to_bytes();
    assert_eq!((terminal.types(b"a"), terminal.waits()), (Err(24), "n"));
    terminal.image[0] = 0;
    assert_eq!((terminal.types(b"a"), terminal.waits()), (Err(2), "n"));
}

#[test]
fn sparse_values() {
    let mut terminal = Terminal::new(&[("a", "あ"), ("b", "い"), ("c", "う")]);
    let mut image = image(&["a", "c"]);
    let ends = image.nodes.iter_mut().filter(|node| node.is_leaf());
    ends.zip([2, 0]).for_each(|(end, value)| end.base = 0x8000_0000 | value);
    terminal.image = image.to_bytes();
    assert_eq!(terminal.types(b"abc"), out("うbあ"));
    terminal.kana.truncate(14);
    assert_eq!(terminal.types(b"c"), Err(24));
}
