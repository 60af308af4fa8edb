//! Examples of request 7 of document 02 as tests of this implementation.

use crate::answers::{self, table_check};
use crate::builder::image_of;
use crate::common::{query_of, Refusal};
use crate::entries::{lookup, to_bytes, Entry, Malformed, Refused, Table};
use crate::image::{CodeMap, Image};
use crate::keylist;
use crate::oracle;
use crate::rules::Rules;

const DOCUMENT: Rules = Rules::DOCUMENT;
const VALUE: u64 = 1 << 32;
const N: u32 = 0x6E;
const A: u32 = 0x61;
const X: u32 = 0x78;
/// What a lent word holds before a call.
const BEFORE: u32 = 77;

fn refused(number: u64) -> u64 {
    number << 40
}

fn p3() -> Image {
    let list = keylist::to_bytes(&[vec![N], vec![N, A]]);
    image_of(DOCUMENT, &list, 1_000).expect("the list builds")
}

/// Two entries for value 0, none for 1, one for 2.
fn lists() -> Vec<Vec<Entry>> {
    vec![vec![*b"rice 1kg", *b"rice 5kg"], vec![], vec![*b"salt    "]]
}

/// The number of a lookup over P3, and the lent words after it.
fn entries(labels: &[u32], table: &[u8]) -> (u64, [u32; 2]) {
    let mut first = [BEFORE; 2];
    let image = p3().to_bytes();
    let number = answers::entries(DOCUMENT, &image, &query_of(labels), table, &mut first);
    (number, first)
}

fn check(image: &Image, table: &[u8]) -> u64 {
    table_check(DOCUMENT, &image.to_bytes(), table)
}

/// The table with the word at a place, V first, changed.
fn with_word(table: &[u8], place: usize, word: u32) -> Vec<u8> {
    let mut table = table.to_vec();
    table[1 + 4 * place..][..4].copy_from_slice(&word.to_be_bytes());
    table
}

fn cause(table: &[u8]) -> Option<Malformed> {
    Table::parse(DOCUMENT, table).err()
}

#[test]
fn a_table_byte_by_byte() {
    let table = to_bytes(&lists());
    let head = [1, 0, 0, 0, 3, 0, 0, 0, 0, 0, 0, 0, 2, 0, 0, 0, 2, 0, 0, 0, 3];
    assert_eq!(table, [&head[..], b"rice 1kgrice 5kgsalt    "].concat());
    assert_eq!(to_bytes(&[]), [1, 0, 0, 0, 0, 0, 0, 0, 0]);
    assert_eq!(oracle::lists_of(&table), Some(lists()));
    assert_eq!(check(&p3(), &table), 3);
}

#[test]
fn parts() {
    let table = to_bytes(&lists());
    assert_eq!(entries(&[N], &table), (VALUE + 2, [0, BEFORE]));
    assert_eq!(entries(&[N, A], &table), (VALUE, [0, BEFORE]));
    assert_eq!(entries(&[X], &table), (0, [0, BEFORE]));
    assert_eq!(entries(&[], &table), (0, [0, BEFORE]));
    let other = to_bytes(&[vec![], vec![[7; 8]]]);
    assert_eq!(entries(&[N, A], &other), (VALUE + 1, [0, BEFORE]));
    let other = to_bytes(&[vec![[7; 8]; 3], vec![[9; 8]; 2]]);
    assert_eq!(entries(&[N, A], &other), (VALUE + 2, [3, BEFORE]));
    let number = answers::entries(DOCUMENT, &p3().to_bytes(), &query_of(&[N]), &other, &mut []);
    assert_eq!(number, VALUE + 3);
}

#[test]
fn version_and_length() {
    let table = to_bytes(&lists());
    for length in 0..table.len() {
        let expected = match length {
            0..5 => Some(Malformed::Head),
            5..21 => Some(Malformed::Short),
            21 | 29 | 37 => None,
            _ => Some(Malformed::Rest),
        };
        assert_eq!(cause(&table[..length]), expected, "{length}");
        assert_eq!(check(&p3(), &table[..length]), refused(26), "{length}");
    }
    let mut other = table.clone();
    other[0] = 2;
    assert_eq!(cause(&other), Some(Malformed::Version));
    assert_eq!(entries(&[X], &other), (refused(26), [BEFORE; 2]));
}

#[test]
fn the_largest_numbers_of_values() {
    for values in [(1 << 30) - 1, 1 << 30, (1 << 31) - 1, u32::MAX - 1, u32::MAX] {
        for length in [5, 9, 13, 21, 45] {
            let table = with_word(&to_bytes(&lists())[..length], 0, values);
            assert_eq!(cause(&table), Some(Malformed::Short));
            assert_eq!(entries(&[X], &table), (refused(26), [BEFORE; 2]));
        }
    }
}

#[test]
fn offsets() {
    let table = to_bytes(&lists());
    let checked = |place, offset| check(&p3(), &with_word(&table, place, offset));
    assert_eq!(checked(1, 1), refused(26));
    assert_eq!(checked(2, 3), refused(26));
    assert_eq!(checked(2, 1), 3);
    assert_eq!(checked(4, 2), refused(26));
    assert_eq!(checked(4, 4), refused(26));
    let found =
        |labels: &[u32], place, offset| entries(labels, &with_word(&table, place, offset)).0;
    assert_eq!(found(&[N], 1, 1), VALUE + 1);
    assert_eq!(found(&[N], 2, 3), VALUE + 3);
    assert_eq!(found(&[N, A], 2, 3), refused(26));
    assert_eq!(found(&[N, A], 3, 4), refused(26));
    assert_eq!(found(&[N, A], 4, 9), VALUE);
    assert_eq!(found(&[N, A, N], 3, 4), 0);
}

#[test]
fn causes_of_a_pair() {
    let table = to_bytes(&lists());
    let found = |place, offset| {
        let table = with_word(&table, place, offset);
        lookup(DOCUMENT, &p3().to_bytes(), &query_of(&[N, A]), &table)
    };
    assert_eq!(found(2, 3), Err(Refused::Malformed(Malformed::FallingPair)));
    assert_eq!(found(3, 4), Err(Refused::Malformed(Malformed::PassingPair)));
    assert_eq!(found(3, 3), Ok(Some(2..3)));
}

#[test]
fn equal_pairs() {
    let equal = |offset| {
        let table = to_bytes(&lists());
        entries(&[N, A], &with_word(&with_word(&table, 2, offset), 3, offset))
    };
    assert_eq!(equal(1), (VALUE, [0, BEFORE]));
    assert_eq!(equal(3), (VALUE, [0, BEFORE]));
    assert_eq!(equal(4), (refused(26), [BEFORE; 2]));
}

#[test]
fn values_not_below_v() {
    let one = to_bytes(&lists()[..1]);
    assert_eq!(check(&p3(), &one), refused(27));
    assert_eq!(entries(&[N], &one), (VALUE + 2, [0, BEFORE]));
    assert_eq!(entries(&[N, A], &one), (refused(27), [BEFORE; 2]));
    let none = to_bytes(&[]);
    assert_eq!(entries(&[X], &none), (0, [0, BEFORE]));
    assert_eq!(entries(&[N], &none), (refused(27), [BEFORE; 2]));
    assert_eq!(check(&image_of(DOCUMENT, &[1, 0, 0, 0, 0], 9).expect("no keys"), &none), 0);
    let cut = &one[..one.len() - 1];
    assert_eq!(check(&p3(), cut), refused(26));
    assert_eq!(entries(&[N, A], cut), (refused(26), [BEFORE; 2]));
}

#[test]
fn sparse_values() {
    let mut image = p3();
    image.nodes[2].base = 0x8000_0000 | 5;
    assert_eq!(check(&image, &to_bytes(&vec![vec![]; 5])), refused(27));
    assert_eq!(check(&image, &to_bytes(&vec![vec![[3; 8]]; 6])), 6);
}

#[test]
fn refusals_of_image_and_query() {
    let (mut image, table) = (p3(), to_bytes(&lists()));
    let bytes = [&image.to_bytes()[..], &[0]].concat();
    let query = &query_of(&[N, A])[..7];
    let found = |image: &[u8], table: &[u8]| {
        lookup(DOCUMENT, image, query, table).map_err(Refused::refusal)
    };
    assert_eq!(found(&bytes, &[]), Err(Refusal(6)));
    assert_eq!(found(&image.to_bytes(), &[]), Err(Refusal(13)));
    assert_eq!(table_check(DOCUMENT, &bytes, &[]), refused(6));
    image.map = CodeMap::new(DOCUMENT, vec![N, N]);
    assert_eq!(check(&image, &[]), refused(9));
    let found = lookup(DOCUMENT, &image.to_bytes(), &query_of(&[N]), &table);
    assert_eq!(found, Ok(Some(0..2)));
}

#[test]
fn only_tables_of_lists_are_accepted() {
    let table = to_bytes(&lists());
    for at in 0..table.len() {
        for byte in 0..=255 {
            let mut table = table.clone();
            table[at] = byte;
            let accepted = check(&p3(), &table) >> 40 == 0;
            let lists = oracle::lists_of(&table).filter(|lists| lists.len() >= 2);
            assert_eq!(accepted, lists.is_some(), "{at} {byte}");
        }
    }
}
