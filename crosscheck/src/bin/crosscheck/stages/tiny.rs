//! Small cases, taken exhaustively: every change of one byte in an image, every
//! image of three slots over a few words, every set of the shortest keys.

use crate::call::Call;
use crate::comparison::Comparison;
use crate::explore::{complete_at_every_size, search};
use crate::keysets::all_strings;
use crate::tables::{kana_of, state_of};
use crosscheck::answers::PLACE_WORDS;
use crosscheck::builder::image_of;
use crosscheck::common::query_of;
use crosscheck::image::{CodeMap, Image, Lists, Node, TOP_BIT};
use crosscheck::keylist::{to_bytes, Key};
use crosscheck::position::Move;
use crosscheck::rules::Rules;

pub fn run(comparison: &mut Comparison) {
    let p3 = to_bytes(&[vec![0x6E], vec![0x6E, 0x61]]);
    let image = image_of(Rules::DOCUMENT, &p3, 64).expect("the example builds").to_bytes();
    every_byte_changed(comparison, &image);
    two_bytes_changed(comparison, &image);
    every_length(comparison, &image);
    three_slots(comparison);
    short_key_sets(comparison);
}

/// Every byte takes every value; every kind of call is made for each byte.
fn every_byte_changed(comparison: &mut Comparison, image: &[u8]) {
    let query = query_of(&[0x6E, 0x61]);
    for at in 0..image.len() {
        let mut changed = image.to_vec();
        for value in 0..=255 {
            changed[at] = value;
            comparison.image(&changed);
            if value % 32 == 0 || value == image[at] ^ 1 || value == 255 {
                search(comparison, &changed, &query, PLACE_WORDS);
                comparison.call(Call::Complete { image: &changed, prefix: &query[..4], room: 60 });
                comparison.call(Call::Complete { image: &changed, prefix: &query[..3], room: 4 });
                type_na(comparison, &changed);
                move_over(comparison, image, &changed);
            }
        }
    }
}

/// Two faults in the header or the map's head, in every order: the earlier refusal counts.
fn two_bytes_changed(comparison: &mut Comparison, image: &[u8]) {
    let map_at = image.len() - 13;
    let places: Vec<usize> = (0..24).chain(map_at..map_at + 6).collect();
    for &at in &places {
        for &other in &places {
            let mut changed = image.to_vec();
            changed[at] ^= 1;
            changed[other] ^= 0x80;
            comparison.image(&changed);
        }
    }
}

fn every_length(comparison: &mut Comparison, image: &[u8]) {
    for length in 0..=image.len() {
        let front = &image[..length];
        comparison.image(front);
        search(comparison, front, &query_of(&[0x6E, 0x61]), PLACE_WORDS);
        comparison.call(Call::Complete { image: front, prefix: &[], room: 60 });
        type_na(comparison, front);
        move_over(comparison, image, front);
    }
}

/// Types an a after an n that was kept, and finishes in its place, with two texts of one label.
fn type_na(comparison: &mut Comparison, image: &[u8]) {
    let (kana, state) = (&kana_of(&[vec![0x3093], vec![0x306A]])[..], &state_of(b"n")[..]);
    comparison.call(Call::Type { image, kana, state, typed: b"a", room: 9 });
    comparison.call(Call::Finish { image, kana, state, room: 9 });
}

/// Moves of a typing position over bytes; if these are refused, also between moves over an image.
fn move_over(comparison: &mut Comparison, image: &[u8], bytes: &[u8]) {
    let (n, a) = (Move::Push(0x6E), Move::Push(0x61));
    comparison.moves([bytes, &[], &[]], &[n, a, Move::Back, Move::Back].map(|next| (0, next)));
    if Image::parse(Rules::DOCUMENT, bytes).is_err() {
        comparison.moves([image, bytes, &[]], &[(0, n), (1, a), (1, Move::Back), (0, a)]);
    }
}

/// Slots 1 and 2 over a few words, with lists right and wrong.
fn three_slots(comparison: &mut Comparison) {
    let bases = [0, 1, 2, 3, TOP_BIT, TOP_BIT | 2];
    let checks = [0, 1, 2, TOP_BIT, TOP_BIT | 1, TOP_BIT | 2];
    let lists: [(&[u32], &[u32]); 6] = [
        (&[0, 0, 0, 0], &[]),
        (&[0, 0, 1, 1], &[2]),
        (&[0, 0, 0, 1], &[2]),
        (&[0, 1, 1, 1], &[2]),
        (&[0, 0, 1, 1], &[1]),
        (&[0, 1, 0, 1], &[2]),
    ];
    let lists = lists
        .map(|(offsets, children)| Lists { offsets: offsets.into(), children: children.into() });
    let node = |&base| checks.map(|check| Node { base, check });
    let words: Vec<Node> = bases.iter().flat_map(node).collect();
    for labels in [&[][..], &[0x61], &[0x61, 0x62, 0x63]] {
        let map = CodeMap::new(Rules::DOCUMENT, labels.to_vec());
        for (&first, &second) in
            words.iter().flat_map(|first| words.iter().map(move |x| (first, x)))
        {
            for lists in lists.iter().cloned() {
                let nodes = vec![Node::default(), first, second];
                comparison.image(&Image { nodes, lists, map: map.clone() }.to_bytes());
            }
        }
    }
}

/// Every set of keys of up to two labels over the smallest and the largest label.
fn short_key_sets(comparison: &mut Comparison) {
    let up_to = |alphabet: &[u32], longest: usize| {
        let mut keys: Vec<Key> = (0..=longest).flat_map(|at| all_strings(alphabet, at)).collect();
        keys.sort();
        keys
    };
    let keys = up_to(&[0, 0x10_FFFF], 2);
    let queries = up_to(&[0, 0x61, 0x10_FFFF], 3);
    for chosen in 0..1 << keys.len() {
        let in_set = |place: &usize| chosen >> place & 1 == 1;
        let set: Vec<Key> = (0..keys.len()).filter(in_set).map(|at| keys[at].clone()).collect();
        let list = to_bytes(&set);
        for work in 0..40 {
            comparison.call(Call::Build { keys: &list, work, out: 400 });
        }
        let image = image_of(Rules::DOCUMENT, &list, 400).expect("short keys build").to_bytes();
        comparison.image(&image);
        for query in queries.iter().map(|labels| query_of(labels)) {
            search(comparison, &image, &query, PLACE_WORDS);
        }
        complete_at_every_size(comparison, &image, &[]);
    }
}
