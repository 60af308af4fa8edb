//! Compares every function over one image: its check, searches and completions.

use crate::call::Call;
use crate::comparison::Comparison;
use crate::queries::any_query;
use crate::tables::{any_texts, kana_of, state_of};
use crosscheck::answers::{why_number, PLACE_WORDS};
use crosscheck::common::{query_of, KEY_LABELS};
use crosscheck::image::Image;
use crosscheck::keylist::Key;
use crosscheck::random::Random;
use crosscheck::rules::Rules;
use crosscheck::why::Reason;

/// All searches for one query, and the reason why it is missing, which has to agree with exact.
pub fn search(comparison: &mut Comparison, image: &[u8], query: &[u8], places: usize) {
    let exact = comparison.call(Call::Exact { image, query });
    comparison.call(Call::Probe { image, query });
    comparison.call(Call::Longest { image, query });
    comparison.call(Call::Prefixes { image, query, places });
    let found = comparison.call(Call::Why { image, query }) == why_number(Reason::Found.at(0));
    comparison.require(found == (exact >> 32 == 1), "found is not exactly where exact has a value");
}

/// One search of any kind, with places of any length.
pub fn any_search(comparison: &mut Comparison, random: &mut Random, image: &[u8], query: &[u8]) {
    match random.below(5) {
        0 => comparison.call(Call::Exact { image, query }),
        1 => comparison.call(Call::Probe { image, query }),
        2 => comparison.call(Call::Longest { image, query }),
        3 => comparison.call(Call::Why { image, query }),
        _ => comparison.call(Call::Prefixes { image, query, places: any_places(random) }),
    };
}

pub fn any_places(random: &mut Random) -> usize {
    match random.below(4) {
        0 => random.below(PLACE_WORDS + 10),
        1 => random.below(8),
        _ => PLACE_WORDS,
    }
}

/// Types or finishes a few letters over an image of any kind, with a small kana table and room.
pub fn any_typing(comparison: &mut Comparison, random: &mut Random, image: &[u8]) {
    let rows = random.below(8);
    let kana = &kana_of(&any_texts(random, rows))[..];
    let text: Vec<u8> = (0..random.below(7)).map(|_| random.pick(b"aabcdn")).collect();
    let (kept, typed) = text.split_at(random.below(text.len() + 1));
    let (state, room) = (&state_of(kept)[..], random.pick(&[0, 3, 4, 20, 80]));
    match random.below(2) {
        0 => comparison.call(Call::Type { image, kana, state, typed, room }),
        _ => comparison.call(Call::Finish { image, kana, state, room }),
    };
}

/// Compares all functions over a small or medium-sized image of `keys`.
pub fn explore(
    comparison: &mut Comparison,
    random: &mut Random,
    image: &Image,
    keys: &[Key],
    queries: usize,
) {
    let bytes = image.to_bytes();
    comparison.image(&bytes);
    for _ in 0..queries {
        let query = any_query(random, image, keys);
        search(comparison, &bytes, &query, any_places(random));
        if random.one_in(3) {
            complete_at_borders(comparison, random, &bytes, &query);
        }
    }
    complete_at_borders(comparison, random, &bytes, &[]);
    if random.one_in(8) {
        every_places_length(comparison, random, image, keys);
    }
}

/// `places` of every length from 0 to past what is needed, for one query.
fn every_places_length(
    comparison: &mut Comparison,
    random: &mut Random,
    image: &Image,
    keys: &[Key],
) {
    let (bytes, query) = (image.to_bytes(), any_query(random, image, keys));
    for places in 0..=PLACE_WORDS + 10 {
        comparison.call(Call::Prefixes { image: &bytes, query: &query, places });
    }
}

/// Completions with room of every size from 0 to past what is needed.
pub fn complete_at_every_size(comparison: &mut Comparison, image: &[u8], prefix: &[u8]) {
    let needed = record_ends(image, prefix).pop().unwrap_or(5);
    for room in 0..=needed + 9 {
        comparison.call(Call::Complete { image, prefix, room });
    }
}

/// Completions with room around the ends of some records.
pub fn complete_at_borders(
    comparison: &mut Comparison,
    random: &mut Random,
    image: &[u8],
    prefix: &[u8],
) {
    let ends = record_ends(image, prefix);
    let needed = ends.last().copied().unwrap_or(5);
    if needed < 100 && random.one_in(6) {
        return complete_at_every_size(comparison, image, prefix);
    }
    let end = random.pick(&ends);
    let any = random.below(needed + 40);
    for room in [random.below(7), end - 1, end, end + 1, needed, needed + 13, any] {
        comparison.call(Call::Complete { image, prefix, room });
    }
}

/// Where the count and each record end, given enough room; at least the end of the count.
fn record_ends(image: &[u8], prefix: &[u8]) -> Vec<usize> {
    let mut ends = vec![5];
    let Ok(image) = Image::parse(Rules::DOCUMENT, image) else {
        return ends;
    };
    let room = 5 + image.lists.children.len() * (5 + 4 * KEY_LABELS);
    let mut records = vec![0; room.min(1 << 20)];
    let bytes = image.to_bytes();
    let Ok(completed) =
        crosscheck::completion::complete(Rules::DOCUMENT, &bytes, prefix, &mut records)
    else {
        return ends;
    };
    for _ in 0..completed.count {
        let end = ends[ends.len() - 1];
        ends.push(end + 5 + 4 * usize::from(records[end]));
    }
    ends
}

/// Searches for the empty query, and for every prefix of each key.
pub fn search_all_prefixes(comparison: &mut Comparison, image: &[u8], keys: &[Key]) {
    search(comparison, image, &[], PLACE_WORDS);
    for key in keys {
        for length in 1..=key.len() {
            search(comparison, image, &query_of(&key[..length]), PLACE_WORDS);
        }
    }
}
