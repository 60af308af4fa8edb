//! Examples of request 5 of document 02 as tests of this implementation.

use crate::answers;
use crate::builder::image_of;
use crate::common::{query_of, KEY_LABELS};
use crate::image::{CodeMap, Image, Lists, Node, TOP_BIT};
use crate::keylist::to_bytes;
use crate::oracle;
use crate::rules::Rules;
use crate::why::Reason::{Found, NoKeyEnds, NoStep, NotListed, TooLong};
use crate::why::{Reason, Why};

const DOCUMENT: Rules = Rules::DOCUMENT;
const N: u32 = 0x6E;
const A: u32 = 0x61;
const X: u32 = 0x78;

fn built(keys: &[&[u32]]) -> Image {
    let keys: Vec<Vec<u32>> = keys.iter().map(|key| key.to_vec()).collect();
    image_of(DOCUMENT, &to_bytes(&keys), 1_000).expect("the list builds")
}

fn p3() -> Image {
    built(&[&[N], &[N, A]])
}

/// Slot 1 is its own parent and reaches itself by A; it has a value.
fn cycle() -> Image {
    let nodes = [(TOP_BIT | 7, 1), (0, TOP_BIT | 1)];
    Image {
        nodes: nodes.map(|(base, check)| Node { base, check }).to_vec(),
        lists: Lists { offsets: vec![0; 3], children: Vec::new() },
        map: CodeMap::new(DOCUMENT, vec![A]),
    }
}

fn why(image: &Image, labels: &[u32]) -> Why {
    image.why(DOCUMENT, labels)
}

#[test]
fn every_reason() {
    let table: [(&[u32], Reason, usize); 12] = [
        (&[], NoKeyEnds, 0),
        (&[N], Found, 0),
        (&[N, A], Found, 0),
        (&[A], NoStep, 0),
        (&[X], NotListed, 0),
        (&[N, N], NoStep, 1),
        (&[N, X], NotListed, 1),
        (&[N, A, N], NoStep, 2),
        (&[N, N, X], NoStep, 1),
        (&[N, X, A, X], NotListed, 1),
        (&[X; KEY_LABELS], NotListed, 0),
        (&[X; KEY_LABELS + 1], TooLong, 0),
    ];
    for (labels, reason, place) in table {
        assert_eq!(why(&p3(), labels), Why { reason, place }, "{labels:?}");
    }
    assert_eq!(why(&built(&[]), &[]), NoKeyEnds.at(0));
    assert_eq!(why(&built(&[&[]]), &[]), Found.at(0));
}

#[test]
fn the_limit_of_a_key() {
    let image = built(&[&[N; KEY_LABELS]]);
    assert_eq!(why(&image, &[N; KEY_LABELS - 1]), NoKeyEnds.at(0));
    assert_eq!(why(&image, &[N; KEY_LABELS]), Found.at(0));
    assert_eq!(why(&image, &[N; KEY_LABELS + 1]), TooLong.at(0));
    assert_eq!(why(&cycle(), &[A; KEY_LABELS]), Found.at(0));
    assert_eq!(why(&cycle(), &[A; KEY_LABELS + 1]), TooLong.at(0));
    let mut labels = [A; KEY_LABELS];
    labels[KEY_LABELS - 1] = X;
    assert_eq!(why(&cycle(), &labels), NotListed.at(KEY_LABELS - 1));
}

#[test]
fn has_leaf_without_a_leaf() {
    let mut image = p3();
    image.nodes[1].check |= TOP_BIT;
    assert_eq!(why(&image, &[]), NoKeyEnds.at(0));
    image.nodes[4].base = 0;
    assert_eq!(why(&image, &[N]), NoKeyEnds.at(0));
    assert_eq!(why(&image, &[N, A]), Found.at(0));
}

#[test]
fn numbers() {
    let (image, query) = (p3().to_bytes(), query_of(&[N, A, N]));
    let longer = [&image[..], &[0]].concat();
    assert_eq!(answers::why(DOCUMENT, &image, &query[..8]), 1 << 34);
    assert_eq!(answers::why(DOCUMENT, &image, &query), (3 << 34) + 2);
    assert_eq!(answers::why(DOCUMENT, &image, &query[..7]), 13 << 40);
    assert_eq!(answers::why(DOCUMENT, &longer, &query[..7]), 6 << 40);
    assert_eq!(answers::why(DOCUMENT, &longer, &[0; 4 * KEY_LABELS + 4]), 6 << 40);
}

#[test]
fn the_set_tells_the_same() {
    let texts = |label: u32| [vec![], vec![label], vec![N, label], vec![N, A, label]];
    for image in [built(&[]), built(&[&[]]), p3(), built(&[&[A, N], &[X]])] {
        let set = oracle::set_of(&image).expect("a built image has a set");
        for labels in [N, A, X].into_iter().flat_map(texts).chain([vec![N; KEY_LABELS + 1]]) {
            let told = oracle::why(&set, &image.map.labels, &labels);
            assert_eq!(told, why(&image, &labels), "{labels:?}");
        }
    }
}
