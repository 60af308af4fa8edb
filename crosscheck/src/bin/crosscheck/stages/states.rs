//! States that no calls give. Document 02 leaves the answer free. Here as many
//! bytes are kept as the first byte counts and as there are, up to the limit, and
//! afterwards the state holds as much of the usual form as fits.

use super::typing::{finish, type_text};
use crate::comparison::Comparison;
use crate::tables::RomajiTable;
use crosscheck::random::Random;
use crosscheck::romaji::{KEPT_BYTES, STATE_BYTES};

pub fn run(comparison: &mut Comparison, random: &mut Random, amount: usize) {
    for _ in 0..60 * amount {
        let table = RomajiTable::any(random);
        for length in [0, 1, 2, 10].into_iter().chain(STATE_BYTES - 2..STATE_BYTES + 8) {
            let state = any_state(random, &table, length);
            let typed = table.any_text(random, 1);
            let room = table.enough(KEPT_BYTES + typed.len());
            type_text(comparison, &table, &state, &typed, room);
            finish(comparison, &table, &state, room);
        }
    }
}

/// A state of this length, with any count.
fn any_state(random: &mut Random, table: &RomajiTable, length: usize) -> Vec<u8> {
    let mut state = table.any_text(random, length);
    state.truncate(length);
    if let Some(count) = state.first_mut() {
        let most = KEPT_BYTES as u8;
        *count = random.pick(&[0, 1, 2, 9, 10, most - 1, most, most + 1, most + 2, 128, 255]);
    }
    state
}
