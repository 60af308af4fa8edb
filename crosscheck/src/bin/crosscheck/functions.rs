//! The archive's C functions, declared for this program and for the benchmark,
//! which includes this file. It is not a module of the library, which does not
//! use the archive.

#[link(name = "lxtr_c", kind = "static")]
extern "C" {
    pub fn lxtr_check(image: *const u8, image_len: usize) -> u64;
    pub fn lxtr_fault(image: *const u8, image_len: usize) -> u64;
    pub fn lxtr_highest(image: *const u8, image_len: usize) -> u64;
    pub fn lxtr_exact(
        image: *const u8,
        image_len: usize,
        query: *const u8,
        query_len: usize,
    ) -> u64;
    pub fn lxtr_probe(
        image: *const u8,
        image_len: usize,
        query: *const u8,
        query_len: usize,
    ) -> u64;
    pub fn lxtr_longest(
        image: *const u8,
        image_len: usize,
        query: *const u8,
        query_len: usize,
    ) -> u64;
    pub fn lxtr_prefixes(
        image: *const u8,
        image_len: usize,
        query: *const u8,
        query_len: usize,
        places: *mut u32,
        places_len: usize,
    ) -> u64;
    pub fn lxtr_why(image: *const u8, image_len: usize, query: *const u8, query_len: usize) -> u64;
    pub fn lxtr_position_fresh() -> u64;
    pub fn lxtr_position_push(image: *const u8, image_len: usize, position: u64, label: u32)
        -> u64;
    pub fn lxtr_position_back(image: *const u8, image_len: usize, position: u64) -> u64;
    pub fn lxtr_position_probe(image: *const u8, image_len: usize, position: u64) -> u64;
    pub fn lxtr_complete(
        image: *const u8,
        image_len: usize,
        prefix: *const u8,
        prefix_len: usize,
        room: *mut u8,
        room_len: usize,
    ) -> u64;
    pub fn lxtr_entries_check(
        image: *const u8,
        image_len: usize,
        table: *const u8,
        table_len: usize,
    ) -> u64;
    pub fn lxtr_entries(
        image: *const u8,
        image_len: usize,
        query: *const u8,
        query_len: usize,
        table: *const u8,
        table_len: usize,
        first: *mut u32,
        first_len: usize,
    ) -> u64;
    pub fn lxtr_romaji_type(
        image: *const u8,
        image_len: usize,
        kana: *const u8,
        kana_len: usize,
        state: *mut u8,
        state_len: usize,
        typed: *const u8,
        typed_len: usize,
        room: *mut u8,
        room_len: usize,
    ) -> u64;
    pub fn lxtr_romaji_finish(
        image: *const u8,
        image_len: usize,
        kana: *const u8,
        kana_len: usize,
        state: *mut u8,
        state_len: usize,
        room: *mut u8,
        room_len: usize,
    ) -> u64;
    pub fn lxtr_build(
        keys: *const u8,
        keys_len: usize,
        work: *mut u32,
        work_len: usize,
        out: *mut u8,
        out_len: usize,
    ) -> u64;
}
