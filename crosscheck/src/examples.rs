//! P1 to P11 and the run examples of document 01, and examples of requests 2 and 6
//! of document 02, as tests of this implementation.

use crate::answers::{self, PLACE_WORDS};
use crate::builder::image_of;
use crate::common::{query_of, Refusal, KEY_LABELS};
use crate::fault;
use crate::image::{CodeMap, Image, Lists, Node};
use crate::keylist::to_bytes;
use crate::listing;
use crate::oracle;
use crate::rules::Rules;
use crate::search::{self, Case};

const DOCUMENT: Rules = Rules::DOCUMENT;
const VALUE: u64 = 1 << 32;
const LONGER: u64 = 1 << 33;

fn refused(number: u64) -> u64 {
    number << 40
}

fn built(keys: &[&[u32]]) -> Image {
    let keys: Vec<Vec<u32>> = keys.iter().map(|key| key.to_vec()).collect();
    image_of(DOCUMENT, &to_bytes(&keys), 131_072).expect("the list builds")
}

fn p3() -> Image {
    built(&[&[0x6E], &[0x6E, 0x61]])
}

fn words(image: &Image) -> Vec<(u32, u32)> {
    image.nodes.iter().map(|node| (node.base, node.check)).collect()
}

fn checked(image: &Image) -> u64 {
    answers::check(DOCUMENT, &image.to_bytes())
}

fn highest(image: &Image) -> u64 {
    answers::highest(DOCUMENT, &image.to_bytes())
}

/// Refusal, part and place of its fault.
fn fault(image: &Image) -> Option<(u8, u8, u32)> {
    let fault = fault::fault(DOCUMENT, &image.to_bytes());
    fault.map(|fault| (fault.refusal, fault.part, fault.place))
}

fn lookup(image: &Image, labels: &[u32]) -> Result<Case, Refusal> {
    search::lookup(DOCUMENT, &image.to_bytes(), &query_of(labels))
}

fn exact(image: &Image, labels: &[u32]) -> u64 {
    answers::exact(DOCUMENT, &image.to_bytes(), &query_of(labels))
}

fn probe(image: &Image, labels: &[u32]) -> u64 {
    answers::probe(DOCUMENT, &image.to_bytes(), &query_of(labels))
}

fn records(image: &Image) -> Vec<u8> {
    let mut room = vec![0; 100];
    answers::complete(DOCUMENT, &image.to_bytes(), &[], &mut room);
    room
}

#[test]
fn p1_no_keys() {
    let image = built(&[]);
    assert_eq!((image.nodes.len(), image.lists.children.len(), image.map.len()), (2, 0, 0));
    assert_eq!(image.to_bytes().len(), 57);
    assert_eq!(words(&image)[1].0, 0);
    assert_eq!(checked(&image), 0);
}

#[test]
fn p2_empty_key() {
    let image = built(&[&[]]);
    assert_eq!(words(&image), [(0, 0), (2, 0x8000_0000), (0x8000_0000, 1)]);
    assert_eq!((image.lists.children.len(), image.to_bytes().len()), (1, 73));
    assert_eq!(checked(&image), 1);
}

#[test]
fn p3_two_keys() {
    let image = p3();
    let leaf = 0x8000_0000;
    let slots = [(0, 0), (2, 0), (leaf | 1, 6), (4, leaf | 1), (leaf, 3), (0, 0), (2, leaf | 3)];
    assert_eq!(words(&image), slots);
    assert_eq!(image.lists.offsets, [0, 0, 1, 1, 3, 3, 3, 4]);
    assert_eq!(image.lists.children, [3, 4, 6, 2]);
    assert_eq!(image.map.labels, [0x6E, 0x61]);
    assert_eq!(image.to_bytes().len(), 141);
    assert_eq!(checked(&image), 2);
    assert_eq!(fault(&image), None);
    assert_eq!(oracle::set_of(&image).map(|set| set.len()), Some(2));
}

#[test]
fn p4_exact() {
    assert_eq!(exact(&p3(), &[0x6E]), VALUE);
    assert_eq!(exact(&p3(), &[0x6E, 0x61]), VALUE + 1);
    assert_eq!(exact(&p3(), &[0x61]), 0);
    assert_eq!(exact(&p3(), &[]), 0);
}

#[test]
fn p5_prefixes() {
    let (image, query) = (p3().to_bytes(), query_of(&[0x6E, 0x61, 0x6E]));
    let mut places = [9; PLACE_WORDS + 1];
    assert_eq!(answers::prefixes(DOCUMENT, &image, &query, &mut places), 2);
    assert_eq!(places[..4], [1, 0, 2, 1]);
    assert_eq!(places[4..PLACE_WORDS], [0; PLACE_WORDS - 4]);
    assert_eq!(places[PLACE_WORDS], 9);
    assert_eq!(answers::longest(DOCUMENT, &image, &query), 2);
}

#[test]
fn p6_probe() {
    assert_eq!(probe(&p3(), &[0x6E]), VALUE + LONGER);
    assert_eq!(probe(&p3(), &[0x6E, 0x61]), VALUE + 1);
    assert_eq!(probe(&p3(), &[]), LONGER);
    assert_eq!(probe(&p3(), &[0x78]), 0);
}

/// Document 02, request 6: P4 and P6 are cases of one lookup.
#[test]
fn p4_and_p6_as_cases() {
    let table: [(&[u32], Case); 5] = [
        (&[0x6E], Case::ExactAndPrefix(0)),
        (&[0x6E, 0x61], Case::Exact(1)),
        (&[], Case::Prefix),
        (&[0x61], Case::Nothing),
        (&[0x78], Case::Nothing),
    ];
    let set = oracle::set_of(&p3()).expect("P3 has a set");
    for (labels, case) in table {
        assert_eq!(lookup(&p3(), labels), Ok(case), "{labels:?}");
        assert_eq!(oracle::lookup(&set, labels), case, "{labels:?}");
    }
}

#[test]
fn lookup_refusals() {
    let (image, query) = (p3().to_bytes(), query_of(&[0x6E, 0x61]));
    let longer = [&image[..], &[0]].concat();
    assert_eq!(search::lookup(DOCUMENT, &image, &query[..7]), Err(Refusal(13)));
    assert_eq!(search::lookup(DOCUMENT, &longer, &query[..7]), Err(Refusal(6)));
    assert_eq!(answers::exact(DOCUMENT, &image, &query[..7]), refused(13));
    assert_eq!(answers::probe(DOCUMENT, &longer, &query[..7]), refused(6));
}

#[test]
fn p7_child_twice() {
    let mut image = p3();
    image.lists.children = vec![3, 4, 4, 2];
    assert_eq!(checked(&image), refused(11));
    assert_eq!(fault(&image), Some((11, 2, 2)));
    assert_eq!(answers::complete(DOCUMENT, &image.to_bytes(), &[], &mut [0; 100]), refused(11));
    assert_eq!(exact(&image, &[0x6E, 0x61]), VALUE + 1);
    assert_eq!(lookup(&image, &[0x6E, 0x61]), Ok(Case::Exact(1)));
    assert_eq!(oracle::set_of(&image), None);
}

#[test]
fn p8_wrong_slots() {
    let mut image = p3();
    image.nodes[3].check = 1;
    assert_eq!(checked(&image), refused(10));
    assert_eq!(fault(&image), Some((10, 0, 3)));
    let mut image = p3();
    image.nodes[5].base = 7;
    assert_eq!(checked(&image), refused(10));
    assert_eq!(fault(&image), Some((10, 0, 5)));
    assert_eq!(oracle::set_of(&image), None);
}

#[test]
fn p9_label_twice_and_length() {
    let mut image = p3();
    image.map = CodeMap::new(DOCUMENT, vec![0x6E, 0x6E]);
    assert_eq!(checked(&image), refused(9));
    assert_eq!(fault(&image), Some((9, 0, 1)));
    let mut longer = p3().to_bytes();
    longer.push(0);
    assert_eq!(answers::check(DOCUMENT, &longer), refused(6));
}

#[test]
fn p10_cycle() {
    let node = |base, check| Node { base, check };
    let image = Image {
        nodes: vec![node(0, 0), node(0, 0), node(2, 3), node(3, 2)],
        lists: Lists { offsets: vec![0, 0, 0, 1, 2], children: vec![3, 2] },
        map: CodeMap::new(DOCUMENT, vec![0x61]),
    };
    assert_eq!(checked(&image), refused(12));
    assert_eq!(fault(&image), Some((12, 0, 2)));
    assert_eq!(oracle::set_of(&image), None);
}

#[test]
fn faults_of_lists() {
    let mut image = p3();
    image.lists.offsets[1] = 4;
    assert_eq!(fault(&image), Some((11, 1, 1)));
    let mut image = p3();
    image.lists = Lists { offsets: vec![0, 0, 1, 1, 2, 2, 2, 3], children: vec![3, 4, 2] };
    assert_eq!(fault(&image), Some((11, 3, 6)));
    image.lists.children[2] = 9;
    assert_eq!(fault(&image), Some((11, 2, 2)));
    let mut image = built(&[]);
    image.nodes[1].base = 5;
    assert_eq!(fault(&image), Some((11, 5, 1)));
}

#[test]
fn highest_values() {
    assert_eq!(highest(&built(&[])), 0);
    assert_eq!(highest(&built(&[&[]])), VALUE);
    assert_eq!(highest(&p3()), VALUE + 1);
    let mut image = built(&[&[0x61], &[0x62], &[0x62, 0x62]]);
    assert_eq!(highest(&image), VALUE + 2);
    image.nodes[2].base = 0x8000_0000 | 300;
    assert_eq!(highest(&image), VALUE + 300);
    image.lists.children.swap(0, 1);
    assert_eq!(highest(&image), refused(11));
}

#[test]
fn p11_code_order() {
    let image = built(&[&[0x61], &[0x62], &[0x62, 0x62]]);
    let mut expected = vec![1, 0, 0, 0, 3];
    for (key, value) in [(&[0x62][..], 1), (&[0x62, 0x62], 2), (&[0x61], 0)] {
        expected.push(key.len() as u8);
        expected.extend(query_of(key));
        expected.extend(query_of(&[value]));
    }
    assert_eq!(records(&image)[..expected.len()], expected);
}

/// Document 02, request 2: every occurrence of a label counts.
#[test]
fn frequencies() {
    let labels = |keys: &[&[u32]]| built(keys).map.labels;
    assert_eq!(labels(&[&[0x61, 0x61], &[0x62], &[0x62, 0x63]]), [0x61, 0x62, 0x63]);
    assert_eq!(labels(&[&[0x61], &[0x62, 0x63, 0x62]]), [0x62, 0x61, 0x63]);
    assert_eq!(labels(&[&[0x61], &[0x61, 0x63], &[0x62; 3]]), [0x62, 0x61, 0x63]);
}

#[test]
fn run_examples() {
    let refusal = |key: &[u32]| image_of(DOCUMENT, &to_bytes(&[key.to_vec()]), 1_000).err();
    assert_eq!(refusal(&[7; KEY_LABELS]), None);
    assert_eq!(refusal(&[7; KEY_LABELS + 1]), Some(Refusal(17)));
    assert_eq!(refusal(&[0xD7FF]), None);
    assert_eq!(refusal(&[0xD800]), Some(Refusal(18)));
    let equal = to_bytes(&[vec![7], vec![7]]);
    assert_eq!(image_of(DOCUMENT, &equal, 1_000).err(), Some(Refusal(19)));
}

#[test]
fn listing_program() {
    let list = to_bytes(&[vec![0x6E], vec![0x6E, 0x61]]);
    assert_eq!(listing::text(DOCUMENT, &list), "pairs 2\n0 6E\n1 6E 61\n");
    assert_eq!(listing::text(DOCUMENT, &[]), "refused 15\n");
    assert_eq!(listing::text(DOCUMENT, &to_bytes(&[vec![0]])), "pairs 1\n0 0\n");
}
