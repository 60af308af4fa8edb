//! Entry tables, request 7 of document 02, over the examples of document 01: small
//! tables with every byte changed, of every length and with every pair of offsets;
//! numbers of values near the largest; two faults at once; and images of every kind.

use super::examples::{built, changed, n_na};
use super::position_examples::cycles;
use crate::call::Call;
use crate::comparison::Comparison;
use crosscheck::common::{query_of, KEY_LABELS};
use crosscheck::entries::{to_bytes, Entry, ENTRY_BYTES, HEAD_BYTES};
use crosscheck::image::{Image, TOP_BIT};

const A: u32 = 0x61;
const N: u32 = 0x6E;
/// Listed by none of the images.
const X: u32 = 0x78;

/// The lengths of the lists of each table.
const LENGTHS: [&[usize]; 8] =
    [&[], &[0], &[3], &[0, 0], &[2, 1], &[0, 2], &[2, 0, 1], &[1, 2, 0, 3]];

/// A few of each kind.
pub fn examples(comparison: &mut Comparison) {
    let image = built(&n_na()).to_bytes();
    comparison.image(&image);
    for table in LENGTHS.map(table_of) {
        every_query(comparison, &image, &table);
        every_length(comparison, &image, &table);
    }
    every_pair(comparison, &image, &[2, 0, 1], &[0, 1, 2, 3, 4, 1 << 24]);
    numbers_of_values(comparison, &image);
    two_faults(comparison, &image);
    sparse_values(comparison);
}

pub fn run(comparison: &mut Comparison) {
    let image = built(&n_na()).to_bytes();
    comparison.image(&image);
    // Near each other and near the entry count, and where eight times an offset or its distance to
    // the other does not fit into 32 bits.
    let eighth = (1 << 29) - 2..(1 << 29) + 4;
    let large = [1 << 24, 3 << 24, 1 << 30, (1 << 31) - 1, 1 << 31, u32::MAX - 1, u32::MAX];
    let offsets: Vec<u32> = (0..8).chain(eighth).chain(large).collect();
    for lengths in LENGTHS {
        every_byte_changed(comparison, &image, &table_of(lengths));
        every_pair(comparison, &image, lengths, &offsets);
    }
    any_images(comparison, &image);
}

/// The table of lists of these lengths, with different entries.
pub fn table_of(lengths: &[usize]) -> Vec<u8> {
    let mut entries = (1..).map(|number: u8| [number; ENTRY_BYTES]);
    let list = |length: &usize| entries.by_ref().take(*length).collect::<Vec<Entry>>();
    to_bytes(&lengths.iter().map(list).collect::<Vec<_>>())
}

/// The check, and lookups of both keys and of another text, each with other lent words.
pub fn check_and_look_up(comparison: &mut Comparison, image: &[u8], table: &[u8]) {
    comparison.call(Call::TableCheck { image, table });
    for (labels, first) in [(&[N][..], 1), (&[N, A], 3), (&[X], 2)] {
        comparison.call(Call::Entries { image, query: &query_of(labels), table, first });
    }
}

/// Present and absent queries, too long ones, and queries cut within a label.
fn every_query(comparison: &mut Comparison, image: &[u8], table: &[u8]) {
    let too_long = [N; KEY_LABELS + 1];
    for labels in [&[][..], &[N], &[A], &[N, A], &[N, A, N], &[N, X], &too_long] {
        let query = query_of(labels);
        for first in 0..4 {
            comparison.call(Call::Entries { image, query: &query, table, first });
        }
        for cut in 0..query.len().min(4) {
            comparison.call(Call::Entries { image, query: &query[cut..], table, first: 1 });
        }
    }
}

/// Cut at every length, and with up to three entries more.
fn every_length(comparison: &mut Comparison, image: &[u8], table: &[u8]) {
    let longer = [table, &[9; 3 * ENTRY_BYTES]].concat();
    for length in 0..=longer.len() {
        check_and_look_up(comparison, image, &longer[..length]);
    }
}

fn every_byte_changed(comparison: &mut Comparison, image: &[u8], table: &[u8]) {
    let offsets_end = table.len().min(HEAD_BYTES + 5 * 4);
    for at in 0..offsets_end {
        let mut changed = table.to_vec();
        for byte in 0..=255 {
            changed[at] = byte;
            check_and_look_up(comparison, image, &changed);
        }
    }
}

/// Each two neighbouring offsets of a table changed to each two of these.
fn every_pair(comparison: &mut Comparison, image: &[u8], lengths: &[usize], offsets: &[u32]) {
    let table = table_of(lengths);
    for value in 0..lengths.len() {
        for from in offsets {
            for to in offsets {
                let changed = with_word(&with_word(&table, 1 + value, *from), 2 + value, *to);
                check_and_look_up(comparison, image, &changed);
            }
        }
    }
}

/// The table with a word changed; word 0 is V, and offset i is word 1 + i.
fn with_word(table: &[u8], place: usize, word: u32) -> Vec<u8> {
    let mut table = table.to_vec();
    table[1 + 4 * place..][..4].copy_from_slice(&word.to_be_bytes());
    table
}

/// Any V before any number of bytes: small ones, ones where four times V+1 does not fit into 32
/// bits and leaves a small number, and the largest.
fn numbers_of_values(comparison: &mut Comparison, image: &[u8]) {
    let table = [&table_of(&[2, 1])[..], &[7; 40]].concat();
    for quarter in 0..4_u32 {
        for near in -6..=6 {
            let values = (quarter << 30).wrapping_add_signed(near);
            for length in (HEAD_BYTES..table.len()).filter(|length| length % 4 == 1) {
                check_and_look_up(comparison, image, &with_word(&table[..length], 0, values));
            }
        }
    }
    for values in [1 << 16, 1 << 24, 1 << 29, 3 << 29] {
        check_and_look_up(comparison, image, &with_word(&table, 0, values));
    }
}

/// Image, query, form, value and pair right and wrong in every combination.
fn two_faults(comparison: &mut Comparison, image: &[u8]) {
    let longer = [image, &[0]].concat();
    let damaged = changed().iter().map(Image::to_bytes).collect::<Vec<_>>();
    let images = [image, &longer].into_iter().chain(damaged.iter().map(Vec::as_slice));
    let (good, few, none) = (table_of(&[2, 1]), table_of(&[2]), table_of(&[]));
    let falling = with_word(&good, 2, 4);
    let passing = with_word(&good, 3, 4);
    let started = with_word(&few, 1, 1);
    let query = query_of(&[N, A]);
    for image in images {
        for table in [&good, &few, &none, &falling, &passing, &started] {
            for table in [table.clone(), with_byte(table, 0, 2), [&table[..], &[0]].concat()] {
                comparison.call(Call::TableCheck { image, table: &table });
                for query in [&query[..], &query[1..], &query[..4], &query[4..], &[]] {
                    comparison.call(Call::Entries { image, query, table: &table, first: 2 });
                }
            }
        }
    }
}

/// A value that is higher than the number of pairs, with as many lists and with fewer.
fn sparse_values(comparison: &mut Comparison) {
    let mut image = built(&n_na());
    image.nodes[2].base = TOP_BIT | 5;
    let image = image.to_bytes();
    comparison.image(&image);
    for values in 0..8 {
        check_and_look_up(comparison, &image, &table_of(&vec![1; values]));
    }
}

fn with_byte(table: &[u8], at: usize, byte: u8) -> Vec<u8> {
    let mut table = table.to_vec();
    table[at] = byte;
    table
}

/// Images without keys and with the empty key, images that pass 1 to 8 only, and an image that is
/// cut or changed in one byte.
fn any_images(comparison: &mut Comparison, image: &[u8]) {
    let tables = [table_of(&[]), table_of(&[2, 1]), table_of(&[1; 12])];
    let mut images: Vec<Vec<u8>> =
        (0..image.len()).map(|length| image[..length].to_vec()).collect();
    images.extend([built(&[]), built(&[vec![]])].iter().map(Image::to_bytes));
    images.extend(changed().iter().chain(&cycles()).map(Image::to_bytes));
    for at in 0..image.len() {
        let changed =
            [0, 2, 5, 0x80, 0xFF, image[at].wrapping_add(1)].map(|byte| with_byte(image, at, byte));
        images.extend(changed);
    }
    for image in &images {
        comparison.image(image);
        for table in &tables {
            check_and_look_up(comparison, image, table);
            comparison.call(Call::Entries { image, query: &[], table, first: 1 });
        }
    }
}
