//! The archive's C functions, called with slices instead of pointers and lengths.

use crate::functions::{
    lxtr_build, lxtr_check, lxtr_complete, lxtr_entries, lxtr_entries_check, lxtr_exact,
    lxtr_highest, lxtr_longest, lxtr_position_back, lxtr_position_fresh, lxtr_position_probe,
    lxtr_position_push, lxtr_prefixes, lxtr_probe, lxtr_romaji_type, lxtr_why,
};

// SAFETY of every call below: a slice is valid for its length, and one lent by
// `&mut` overlaps no other.

pub fn check(image: &[u8]) -> u64 {
    unsafe { lxtr_check(image.as_ptr(), image.len()) }
}

pub fn highest(image: &[u8]) -> u64 {
    unsafe { lxtr_highest(image.as_ptr(), image.len()) }
}

pub fn exact(image: &[u8], query: &[u8]) -> u64 {
    unsafe { lxtr_exact(image.as_ptr(), image.len(), query.as_ptr(), query.len()) }
}

pub fn probe(image: &[u8], query: &[u8]) -> u64 {
    unsafe { lxtr_probe(image.as_ptr(), image.len(), query.as_ptr(), query.len()) }
}

pub fn longest(image: &[u8], query: &[u8]) -> u64 {
    unsafe { lxtr_longest(image.as_ptr(), image.len(), query.as_ptr(), query.len()) }
}

pub fn prefixes(image: &[u8], query: &[u8], places: &mut [u32]) -> u64 {
    let (places, places_len) = (places.as_mut_ptr(), places.len());
    unsafe {
        lxtr_prefixes(image.as_ptr(), image.len(), query.as_ptr(), query.len(), places, places_len)
    }
}

pub fn why(image: &[u8], query: &[u8]) -> u64 {
    unsafe { lxtr_why(image.as_ptr(), image.len(), query.as_ptr(), query.len()) }
}

pub fn position_fresh() -> u64 {
    unsafe { lxtr_position_fresh() }
}

pub fn position_push(image: &[u8], position: u64, label: u32) -> u64 {
    unsafe { lxtr_position_push(image.as_ptr(), image.len(), position, label) }
}

pub fn position_back(image: &[u8], position: u64) -> u64 {
    unsafe { lxtr_position_back(image.as_ptr(), image.len(), position) }
}

pub fn position_probe(image: &[u8], position: u64) -> u64 {
    unsafe { lxtr_position_probe(image.as_ptr(), image.len(), position) }
}

pub fn complete(image: &[u8], prefix: &[u8], room: &mut [u8]) -> u64 {
    let (room, room_len) = (room.as_mut_ptr(), room.len());
    unsafe {
        lxtr_complete(image.as_ptr(), image.len(), prefix.as_ptr(), prefix.len(), room, room_len)
    }
}

pub fn table_check(image: &[u8], table: &[u8]) -> u64 {
    unsafe { lxtr_entries_check(image.as_ptr(), image.len(), table.as_ptr(), table.len()) }
}

pub fn entries(image: &[u8], query: &[u8], table: &[u8], first: &mut [u32]) -> u64 {
    let (first, first_len) = (first.as_mut_ptr(), first.len());
    let (image, image_len) = (image.as_ptr(), image.len());
    let (query, query_len, table, table_len) =
        (query.as_ptr(), query.len(), table.as_ptr(), table.len());
    unsafe { lxtr_entries(image, image_len, query, query_len, table, table_len, first, first_len) }
}

pub fn romaji_type(
    image: &[u8],
    kana: &[u8],
    state: &mut [u8],
    typed: &[u8],
    room: &mut [u8],
) -> u64 {
    let (state, state_len) = (state.as_mut_ptr(), state.len());
    let (room, room_len) = (room.as_mut_ptr(), room.len());
    let (image, image_len) = (image.as_ptr(), image.len());
    let (kana, kana_len, typed, typed_len) =
        (kana.as_ptr(), kana.len(), typed.as_ptr(), typed.len());
    unsafe {
        lxtr_romaji_type(
            image, image_len, kana, kana_len, state, state_len, typed, typed_len, room, room_len,
        )
    }
}

pub fn build(keys: &[u8], work: &mut [u32], out: &mut [u8]) -> u64 {
    let (work, work_len) = (work.as_mut_ptr(), work.len());
    let (out, out_len) = (out.as_mut_ptr(), out.len());
    unsafe { lxtr_build(keys.as_ptr(), keys.len(), work, work_len, out, out_len) }
}
