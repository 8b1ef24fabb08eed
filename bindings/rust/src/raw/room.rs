//! A block on a table of confirmed records that is full, or nearly so, on each board: it is refused (7) exactly where the table, after the skipped heights have
//! pruned it and once the list is in, would hold more than it has room for. The methods lend such a table only with room for 1,000,000.

use super::{Lent, State, block_connected, tx_entered};
use crate::{Base, Board, COUNTS, PENDING_SIZE, RECENT_SIZE, Txid, Wide};

const FULL: u32 = 7;
/// The height of a record that no height prunes, and of an entry that no height lets go of.
const LATE: u32 = u32::MAX;

on_each_board! {
    an_id_listed_twice_counts_once,
    an_id_that_is_not_pending_needs_no_room,
    an_id_that_still_has_a_record_needs_no_further_room,
    an_id_whose_record_is_pruned_needs_a_place_again,
    the_skipped_heights_make_room_and_the_blocks_own_makes_none,
    without_skipped_heights_nothing_is_pruned,
    resolved_through_25_goes_at_the_next_height_if_that_is_skipped,
    bad_lists_and_wide_gaps_are_told_first,
    a_small_node_whose_full_table_the_gap_clears,
}

/// An estimator's memory with tables of a few places.
#[derive(Clone, Debug, PartialEq)]
struct Memory {
    state: State,
    confirmed: Vec<f64>,
    resolved: Vec<f64>,
    pending: Vec<u8>,
    recent: Vec<u8>,
}

impl Memory {
    /// A last height, pending records (id, entry, resolved-through), confirmed records (id, height), ids rising, and so many places for the latter.
    fn laid(last: Option<u32>, pending: &[(u8, u32, u32)], recent: &[(u8, u32)], places: usize) -> Self {
        let mut memory = Self {
            state: [u64::from(last.is_some()), u64::from(last.unwrap_or(0)), pending.len() as u64, recent.len() as u64],
            confirmed: vec![0.0; COUNTS],
            resolved: vec![0.0; COUNTS],
            pending: vec![0; pending.len() * PENDING_SIZE],
            recent: vec![0; places * RECENT_SIZE],
        };
        for (record, (id, entry, through)) in memory.pending.chunks_mut(PENDING_SIZE).zip(pending) {
            record.copy_from_slice(&[&[*id; 32][..], &33_u32.to_le_bytes(), &entry.to_le_bytes(), &through.to_le_bytes()].concat());
        }
        for (record, (id, height)) in memory.recent.chunks_mut(RECENT_SIZE).zip(recent) {
            record.copy_from_slice(&[&[*id; 32][..], &height.to_le_bytes()].concat());
        }
        memory
    }

    fn connect<B: Board>(&mut self, bytes: &[u8], height: u32) -> u32 {
        let ids: Vec<Txid> = bytes.iter().map(|byte| Txid([*byte; 32])).collect();
        let Self { state, confirmed, resolved, pending, recent } = self;
        block_connected::<B>(state, Lent { confirmed, resolved, pending, recent }, &ids, height)
    }

    /// The block has no room, and changes nothing.
    #[track_caller]
    fn refuses<B: Board>(&self, bytes: &[u8], height: u32) {
        let mut after = self.clone();
        assert_eq!(after.connect::<B>(bytes, height), FULL, "{bytes:?} at {height}");
        assert!(after == *self, "a refused block changes nothing");
    }

    /// The block is done, and leaves so many pending records and these confirmed ones.
    #[track_caller]
    fn takes<B: Board>(&self, bytes: &[u8], height: u32, pending: u64, recent: &[(u8, u32)]) {
        let mut after = self.clone();
        assert_eq!(after.connect::<B>(bytes, height), 0, "{bytes:?} at {height}");
        let last = if self.state[0] == 1 { self.state[1].max(height.into()) } else { height.into() };
        assert_eq!(after.state, [1, last, pending, recent.len() as u64], "{bytes:?} at {height}");
        assert_eq!(after.recent, Self::laid(None, &[], recent, self.recent.len() / RECENT_SIZE).recent, "{bytes:?} at {height}");
    }
}

fn an_id_listed_twice_counts_once<B: Board>() {
    let two = [(1, 100, 0), (2, 100, 0)];
    let one_place = Memory::laid(None, &two, &[], 1);
    one_place.takes::<B>(&[1, 1, 1], 101, 1, &[(1, 101)]);
    one_place.refuses::<B>(&[1, 2], 101);
    one_place.refuses::<B>(&[1, 2, 1], 101);
    Memory::laid(None, &two, &[], 2).takes::<B>(&[2, 1, 2, 1, 1], 101, 0, &[(1, 101), (2, 101)]);
    Memory::laid(None, &two, &[], 0).refuses::<B>(&[1, 1], 101);
}

fn an_id_that_is_not_pending_needs_no_room<B: Board>() {
    let full = Memory::laid(None, &[(1, 100, 0)], &[(2, 100)], 1);
    full.takes::<B>(&[3, 2, 3, 4], 101, 1, &[(2, 100)]);
    full.refuses::<B>(&[3, 1], 101);
}

fn an_id_that_still_has_a_record_needs_no_further_room<B: Board>() {
    let pending = [(1, 100, 0)];
    for height in [99, 103] {
        Memory::laid(Some(100), &pending, &[(1, height)], 1).takes::<B>(&[1, 1], 103, 0, &[(1, 103)]);
    }
    for height in [95, 100, 101] {
        Memory::laid(Some(100), &pending, &[(1, 90)], 1).takes::<B>(&[1], height, 0, &[(1, height)]);
    }
    Memory::laid(Some(100), &pending, &[(2, 99)], 1).refuses::<B>(&[1], 103);
}

fn an_id_whose_record_is_pruned_needs_a_place_again<B: Board>() {
    let (pending, recent) = ([(1, LATE, 0), (3, LATE, 0)], [(1, 100), (2, 101)]);
    let two_places = Memory::laid(Some(101), &pending, &recent, 2);
    two_places.refuses::<B>(&[1, 3], 127);
    two_places.takes::<B>(&[1], 127, 1, &[(1, 127)]);
    Memory::laid(Some(101), &pending, &recent, 3).takes::<B>(&[1, 3], 127, 0, &[(1, 127), (3, 127)]);
}

fn the_skipped_heights_make_room_and_the_blocks_own_makes_none<B: Board>() {
    for last in [101, 125] {
        let full = Memory::laid(Some(last), &[(1, LATE, 0)], &[(2, 100)], 1);
        full.refuses::<B>(&[1], 126);
        full.takes::<B>(&[1], 127, 0, &[(1, 127)]);
        full.takes::<B>(&[], 126, 1, &[]);
    }
}

fn without_skipped_heights_nothing_is_pruned<B: Board>() {
    let full = Memory::laid(Some(200), &[(1, LATE, 0)], &[(2, 100)], 1);
    for height in [201, 200, 199, 150, 0] {
        full.refuses::<B>(&[1], height);
    }
    full.takes::<B>(&[1], 202, 0, &[(1, 202)]);
    let first = Memory { state: [0, 0, 1, 1], ..full };
    for height in [0, 127, 202, u32::MAX] {
        first.refuses::<B>(&[1], height);
    }
}

fn resolved_through_25_goes_at_the_next_height_if_that_is_skipped<B: Board>() {
    let (pending, recent) = ([(1, 100, 25)], [(2, LATE)]);
    let full = Memory::laid(Some(100), &pending, &recent, 1);
    for height in [99, 100, 101] {
        full.refuses::<B>(&[1], height);
    }
    full.takes::<B>(&[1], 102, 0, &recent);
    Memory::laid(None, &pending, &recent, 1).refuses::<B>(&[1], 102);
    Memory::laid(Some(100), &pending, &recent, 2).takes::<B>(&[1], 101, 0, &[(1, 101), (2, LATE)]);
}

/// An id that entered at 100 is let go of after that many blocks: before the block above that height, and not before one at it.
fn expires_after<B: Board>(life: u32) {
    let (gone, recent) = (100 + life, [(2, LATE)]);
    for (last, through) in [(100, 0), (gone - 1, 24)] {
        let full = Memory::laid(Some(last), &[(1, 100, through)], &recent, 1);
        full.refuses::<B>(&[1], gone);
        full.takes::<B>(&[1, 1], gone + 1, 0, &recent);
    }
}

#[test]
fn an_id_that_expires_in_the_skipped_heights_needs_no_room() {
    expires_after::<Base>(25);
    expires_after::<Wide>(150);
    Memory::laid(Some(100), &[(1, 100, 0)], &[(2, LATE)], 1).refuses::<Wide>(&[1], 126);
}

fn bad_lists_and_wide_gaps_are_told_first<B: Board>() {
    let full = Memory::laid(Some(100), &[(1, LATE, 0)], &[(2, LATE)], 1);
    assert_eq!(full.clone().connect::<B>(&[1], 4_197), 6);
    full.refuses::<B>(&[1], 4_196);
    let Memory { mut state, mut confirmed, mut resolved, mut pending, mut recent } = full.clone();
    // SAFETY: slices of this function, each with its own length.
    let answer = unsafe {
        (B::CALLS.block_connected)(
            state.as_mut_ptr(),
            state.len(),
            confirmed.as_mut_ptr(),
            confirmed.len(),
            resolved.as_mut_ptr(),
            resolved.len(),
            pending.as_mut_ptr(),
            pending.len(),
            recent.as_mut_ptr(),
            recent.len(),
            [1; 33].as_ptr(),
            33,
            4_197,
        )
    };
    assert_eq!(answer, 5);
    assert!(Memory { state, confirmed, resolved, pending, recent } == full, "a refused block changes nothing");
}

fn a_small_node_whose_full_table_the_gap_clears<B: Board>() {
    let mut node = Memory::laid(None, &[(1, 100, 0), (2, 100, 0), (3, 100, 0)], &[], 3);
    assert_eq!(node.connect::<B>(&[1, 2, 3], 101), 0);
    assert_eq!(tx_entered::<B>(&mut node.state, &mut node.pending, &Txid([4; 32]), 5_000, 120), 0);
    for height in [102, 121, 127] {
        node.refuses::<B>(&[4], height);
    }
    node.takes::<B>(&[4, 4, 1], 128, 0, &[(4, 128)]);
}
