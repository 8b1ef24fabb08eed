//! What the safe methods never ask of the library, on each board: states that are none, tables that are no tables, and null pointers.

use super::{Lent, State, block_connected, estimate, from_history_bytes, new, to_history_bytes, tx_entered, tx_left, version};
use crate::{Base, Board, COUNTS, FLOOR, PENDING_SIZE, RECENT_SIZE, Txid, VERSION, Wide, expect_version};
use std::ptr::{null, null_mut};

const DAMAGED: u32 = 1;
const BELOW_FLOOR: u32 = 16;
const ID: Txid = Txid([7; 32]);

on_each_board! {
    a_fresh_state_is_taken,
    a_state_that_is_none_is_damaged,
    used_numbers_beyond_the_tables_are_damaged,
    damage_is_told_before_the_floor,
    short_counts_are_damaged,
    null_pointers_with_no_elements_make_an_estimator_without_tables,
    nothing_but_null_pointers_is_damaged,
}

/// All that a caller lends, with room for two records in each table.
#[derive(Clone, Debug, PartialEq)]
struct Memory {
    state: State,
    confirmed: Vec<f64>,
    resolved: Vec<f64>,
    pending: Vec<u8>,
    recent: Vec<u8>,
    out: Vec<u8>,
    carried: u64,
}

impl Memory {
    fn fresh<B: Board>() -> Self {
        let mut memory = Self {
            state: [9; 4],
            confirmed: vec![1.0; COUNTS],
            resolved: vec![f64::NAN; COUNTS],
            pending: vec![1; 2 * PENDING_SIZE],
            recent: vec![2; 2 * RECENT_SIZE],
            out: vec![3; B::HISTORY_SIZE + 200],
            carried: 4,
        };
        let Self { state, confirmed, resolved, pending, recent, .. } = &mut memory;
        assert_eq!(new::<B>(state, Lent { confirmed, resolved, pending, recent }), 0);
        assert_eq!((memory.state, memory.carried), ([0; 4], 4));
        memory
    }

    /// The answers of the five calls that are given a state.
    fn answers<B: Board>(&mut self) -> [u32; 5] {
        let Self { state, confirmed, resolved, pending, recent, out, carried } = self;
        [
            tx_entered::<B>(state, pending, &ID, 5_000, 100),
            tx_left::<B>(state, pending, &ID),
            block_connected::<B>(state, Lent { confirmed, resolved, pending, recent }, &[ID], 101),
            estimate::<B>(state, confirmed, resolved, 1, carried),
            to_history_bytes::<B>(state, confirmed, resolved, pending, recent, out, carried),
        ]
    }

    /// All five are refused as Damaged, and change nothing.
    fn is_damaged<B: Board>(mut self) -> bool {
        let before = self.clone();
        self.answers::<B>() == [DAMAGED; 5] && self == before
    }
}

fn a_fresh_state_is_taken<B: Board>() {
    assert_eq!(Memory::fresh::<B>().answers::<B>(), [0; 5]);
}

fn a_state_that_is_none_is_damaged<B: Board>() {
    let beyond = u64::from(u32::MAX) + 1;
    for state in
        [[2, 0, 0, 0], [u64::MAX, 0, 0, 0], [0, 1, 0, 0], [0, u64::MAX, 0, 0], [1, beyond, 0, 0], [1, u64::MAX, 0, 0], [2, beyond, 3, 3]]
    {
        assert!(Memory { state, ..Memory::fresh::<B>() }.is_damaged::<B>(), "{state:?}");
    }
    let state = [1, u64::from(u32::MAX), 0, 0];
    assert_eq!(Memory { state, ..Memory::fresh::<B>() }.answers::<B>(), [0; 5]);
}

fn used_numbers_beyond_the_tables_are_damaged<B: Board>() {
    let mut beyond = Memory { state: [0, 0, 3, 0], ..Memory::fresh::<B>() };
    assert_eq!(beyond.answers::<B>(), [DAMAGED, DAMAGED, DAMAGED, 0, DAMAGED]);
    let mut beyond = Memory { state: [0, 0, u64::MAX, u64::MAX], ..Memory::fresh::<B>() };
    assert_eq!(beyond.answers::<B>(), [DAMAGED, DAMAGED, DAMAGED, 0, DAMAGED]);
    let mut beyond = Memory { state: [0, 0, 0, u64::MAX], ..Memory::fresh::<B>() };
    assert_eq!(beyond.answers::<B>(), [0, 0, DAMAGED, 0, DAMAGED]);
}

fn damage_is_told_before_the_floor<B: Board>() {
    let below = |mut memory: Memory| tx_entered::<B>(&mut memory.state, &mut memory.pending, &ID, FLOOR - 1, 100);
    assert_eq!(below(Memory::fresh::<B>()), BELOW_FLOOR);
    assert_eq!(below(Memory { state: [0, 0, 3, 0], ..Memory::fresh::<B>() }), DAMAGED);
    assert_eq!(below(Memory { pending: vec![1; PENDING_SIZE], ..Memory::fresh::<B>() }), DAMAGED);
    assert_eq!(below(Memory { state: [2, 0, 0, 0], ..Memory::fresh::<B>() }), DAMAGED);
}

fn short_counts_are_damaged<B: Board>() {
    let mut short = Memory { resolved: vec![0.0; COUNTS - 1], ..Memory::fresh::<B>() };
    let before = short.clone();
    let Memory { state, confirmed, resolved, pending, recent, carried, .. } = &mut short;
    assert_eq!(new::<B>(state, Lent { confirmed, resolved, pending, recent }), DAMAGED);
    assert_eq!(from_history_bytes::<B>(&[], Lent { confirmed, resolved, pending, recent }, state, carried), DAMAGED);
    assert_eq!(short, before);
}

#[test]
fn the_library_has_this_crates_version() {
    assert_eq!(version(), VERSION);
}

#[test]
#[should_panic(expected = "has version 2 of its interface, and this crate is for version 3")]
fn another_version_is_told() {
    expect_version(2);
}

fn null_pointers_with_no_elements_make_an_estimator_without_tables<B: Board>() {
    let Memory { mut state, mut confirmed, mut resolved, mut out, mut carried, .. } = Memory::fresh::<B>();
    let (c, r, s, n) = (confirmed.as_mut_ptr(), resolved.as_mut_ptr(), state.as_mut_ptr(), COUNTS);
    let (calls, id, none) = (B::CALLS, ID.as_bytes().as_ptr(), null_mut());
    // SAFETY: slices of this function, each with its own length, and null pointers with length 0.
    unsafe {
        assert_eq!((calls.new)(c, n, r, n, none, 0, none, 0, s, 4), 0);
        assert_eq!((calls.tx_entered)(s, 4, none, 0, id, 32, 5_000, 100), 3);
        assert_eq!((calls.tx_entered)(s, 4, none, 0, id, 32, 999, 100), BELOW_FLOOR);
        assert_eq!((calls.tx_left)(s, 4, none, 0, id, 32), 4);
        assert_eq!((calls.block_connected)(s, 4, c, n, r, n, none, 0, none, 0, id, 32, 101), 0);
        assert_eq!((calls.block_connected)(s, 4, c, n, r, n, none, 0, none, 0, null(), 0, 102), 0);
        assert_eq!((calls.estimate)(s, 4, c, n, r, n, 1, &raw mut carried, 1), 0);
        assert_eq!((calls.to_history_bytes)(s, 4, c, n, r, n, none, 0, none, 0, none, 0, &raw mut carried, 1), 12);
        assert_eq!(carried, B::HISTORY_SIZE as u64 + 4);
        assert_eq!((calls.to_history_bytes)(s, 4, c, n, r, n, none, 0, none, 0, out.as_mut_ptr(), out.len(), &raw mut carried, 1), 0);
        assert_eq!(
            (calls.from_history_bytes)(out.as_ptr(), B::HISTORY_SIZE + 4, c, n, r, n, none, 0, none, 0, s, 4, &raw mut carried, 1),
            0
        );
        assert_eq!((calls.from_history_bytes)(null(), 0, c, n, r, n, none, 0, none, 0, s, 4, &raw mut carried, 1), 10);
    }
    assert_eq!(state, [1, 102, 0, 0]);
}

fn nothing_but_null_pointers_is_damaged<B: Board>() {
    let (calls, f, b, w) = (B::CALLS, null_mut(), null_mut(), null_mut());
    // SAFETY: null pointers with length 0.
    let answers = unsafe {
        [
            (calls.new)(f, 0, f, 0, b, 0, b, 0, w, 0),
            (calls.tx_entered)(w, 0, b, 0, b, 0, 5_000, 100),
            (calls.tx_left)(w, 0, b, 0, b, 0),
            (calls.block_connected)(w, 0, f, 0, f, 0, b, 0, b, 0, b, 0, 101),
            (calls.estimate)(w, 0, f, 0, f, 0, 1, w, 0),
            (calls.to_history_bytes)(w, 0, f, 0, f, 0, b, 0, b, 0, b, 0, w, 0),
            (calls.from_history_bytes)(b, 0, f, 0, f, 0, b, 0, b, 0, w, 0, w, 0),
        ]
    };
    assert_eq!(answers, [DAMAGED; 7]);
}
