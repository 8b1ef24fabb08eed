//! Which pages of memory a block writes, on each board. A row (25 counts of one kind of one bucket) that holds only zeros is not stored to, so that a caller who
//! checkpoints need not copy its page. No contract can say that nothing was stored: here each page that holds only such rows is read-only while a child process
//! makes the call, and a store there is the child's death.

use super::{Lent, State, block_connected, new, tx_entered};
use crate::{Base, Board, COUNTS, PENDING_SIZE, RECENT_SIZE, Txid, WIDEST_GAP, Wide};
use std::ffi::{c_int, c_long, c_void};
use std::marker::PhantomData;
use std::ops::Range;
use std::ptr::null_mut;
use std::slice;

const COLUMNS: usize = 25;
const ROWS: usize = COUNTS / COLUMNS;
const ROW_SIZE: usize = COLUMNS * size_of::<f64>();
/// Room for the counts of a kind, from any place of a page of up to 64 KB.
const SPACE: usize = 128 * 1024;

const PROT_READ: c_int = 1;
const PROT_WRITE: c_int = 2;
const MAP_SHARED: c_int = 1;
const MAP_ANONYMOUS: c_int = 0x20;
const SC_PAGESIZE: c_int = 30;
const SIGSEGV: c_int = 11;

on_each_board! {
    nothing_is_stored_on_an_empty_board,
    only_rows_that_hold_something_are_stored,
    each_kind_is_judged_by_itself,
    a_store_to_an_empty_row_is_noticed,
}

unsafe extern "C" {
    fn mmap(at: *mut c_void, len: usize, allowed: c_int, flags: c_int, file: c_int, offset: i64) -> *mut c_void;
    fn mprotect(at: *mut c_void, len: usize, allowed: c_int) -> c_int;
    fn munmap(at: *mut c_void, len: usize) -> c_int;
    safe fn sysconf(name: c_int) -> c_long;
    safe fn fork() -> c_int;
    fn waitpid(child: c_int, status: *mut c_int, options: c_int) -> c_int;
    safe fn _exit(status: c_int) -> !;
}

fn page_size() -> usize {
    usize::try_from(sysconf(SC_PAGESIZE)).expect("the size of a page")
}

/// Whether a row holds only zeros, of either sign.
fn is_empty(counts: &[f64], row: usize) -> bool {
    counts[row * COLUMNS..][..COLUMNS].iter().all(|count| *count == 0.0)
}

fn bits(counts: &[f64]) -> Vec<u64> {
    counts.iter().map(|count| count.to_bits()).collect()
}

/// The counts of a kind in pages of their own, which a child process shares.
struct Pages {
    base: *mut u8,
    begin: usize,
}

impl Pages {
    /// These counts, laid so that a page ends where this row ends.
    fn holding(counts: &[f64], row: usize) -> Self {
        // SAFETY: new memory, at no fixed place.
        let base = unsafe { mmap(null_mut(), SPACE, PROT_READ | PROT_WRITE, MAP_SHARED | MAP_ANONYMOUS, -1, 0) };
        assert!(base.addr() != usize::MAX, "mmap");
        let before = (row + 1) * ROW_SIZE;
        let mut pages = Self { base: base.cast(), begin: before.next_multiple_of(page_size()) - before };
        pages.counts_mut().copy_from_slice(counts);
        pages
    }

    fn counts(&self) -> &[f64] {
        // SAFETY: mapped as long as this value lives; `begin` is a multiple of 8, and the counts end within the space.
        unsafe { slice::from_raw_parts(self.base.add(self.begin).cast(), COUNTS) }
    }

    fn counts_mut(&mut self) -> &mut [f64] {
        // SAFETY: as in `counts`.
        unsafe { slice::from_raw_parts_mut(self.base.add(self.begin).cast(), COUNTS) }
    }

    /// The rows of which a page has a part.
    fn rows_in(&self, page: usize) -> Range<usize> {
        let (from, to) = (page * page_size(), (page + 1) * page_size());
        from.saturating_sub(self.begin) / ROW_SIZE..to.saturating_sub(self.begin).div_ceil(ROW_SIZE).min(ROWS)
    }

    /// Makes each page read-only that has rows, all of which pass the test: how many these are.
    fn protect(&mut self, passes: impl Fn(usize) -> bool) -> usize {
        let mut protected = 0;
        for page in 0..SPACE / page_size() {
            let mut rows = self.rows_in(page);
            if !rows.is_empty() && rows.all(&passes) {
                // SAFETY: a page of this mapping, into which no reference is held.
                let answer = unsafe { mprotect(self.base.add(page * page_size()).cast(), page_size(), PROT_READ) };
                assert_eq!(answer, 0, "mprotect");
                protected += 1;
            }
        }
        protected
    }
}

impl Drop for Pages {
    fn drop(&mut self) {
        // SAFETY: the whole mapping, into which no reference is held any more.
        assert_eq!(unsafe { munmap(self.base.cast(), SPACE) }, 0, "munmap");
    }
}

/// Whether the work comes to its end in a child process. A fault is an answer, anything else but success is an error.
fn survives(work: impl FnOnce() -> bool) -> bool {
    let child = fork();
    assert!(child >= 0, "fork");
    if child == 0 {
        // Only this thread is left here: the work takes no lock and no heap, and nothing is dropped.
        _exit(c_int::from(!work()));
    }
    let mut status = 0;
    // SAFETY: one number is written, through the pointer.
    assert_eq!(unsafe { waitpid(child, &raw mut status, 0) }, child, "waitpid");
    assert!(status == 0 || status & 0x7f == SIGSEGV, "the child ended with status {status:#x}");
    status == 0
}

/// An estimator's memory, with room for four records in each table.
#[derive(Clone)]
struct Memory<B: Board> {
    board: PhantomData<B>,
    state: State,
    confirmed: Vec<f64>,
    resolved: Vec<f64>,
    pending: Vec<u8>,
    recent: Vec<u8>,
}

/// What connects a block: the library, or what stands in for it.
type Connect = fn(&mut State, Lent<'_>, &[Txid], u32) -> u32;

impl<B: Board> Memory<B> {
    fn fresh() -> Self {
        let mut fresh = Self {
            board: PhantomData,
            state: [0; 4],
            confirmed: vec![0.0; COUNTS],
            resolved: vec![0.0; COUNTS],
            pending: vec![0; 4 * PENDING_SIZE],
            recent: vec![0; 4 * RECENT_SIZE],
        };
        let Self { state, confirmed, resolved, pending, recent, .. } = &mut fresh;
        assert_eq!(new::<B>(state, Lent { confirmed, resolved, pending, recent }), 0);
        fresh
    }

    /// Document 01's "Quad": two transactions that block 101 has confirmed, and two that it has not.
    fn quad() -> Self {
        Self::fresh().entered(1, 5_000).entered(2, 5_000).entered(3, 1_000).entered(4, 1_000).connected(&ids(&[1, 2]), 101)
    }

    fn entered(mut self, byte: u8, rate: u64) -> Self {
        assert_eq!(tx_entered::<B>(&mut self.state, &mut self.pending, &Txid([byte; 32]), rate, 100), 0);
        self
    }

    fn connected(mut self, ids: &[Txid], height: u32) -> Self {
        let Self { state, confirmed, resolved, pending, recent, .. } = &mut self;
        assert_eq!(block_connected::<B>(state, Lent { confirmed, resolved, pending, recent }, ids, height), 0);
        self
    }

    /// The zeros of every second row with a sign.
    fn with_minus_zeros(mut self) -> Self {
        for two_rows in self.confirmed.chunks_mut(2 * COLUMNS).chain(self.resolved.chunks_mut(2 * COLUMNS)) {
            two_rows[..COLUMNS].iter_mut().filter(|count| **count == 0.0).for_each(|count| *count = -0.0);
        }
        self
    }

    /// A block on counts of which a page ends where this row ends. Each page is read-only that has only rows that are empty before the block and after it. Answers how many
    /// these are, and whether the block survives; the counts are then what they are elsewhere, bit for bit.
    fn watched(&self, connect: Connect, ids: &[Txid], height: u32, row: usize) -> (usize, bool) {
        let after = self.clone().connected(ids, height);
        let mut pages = [(&self.confirmed, &after.confirmed), (&self.resolved, &after.resolved)].map(|(before, after)| {
            let mut pages = Pages::holding(before, row);
            let protected = pages.protect(|row| is_empty(before, row) && is_empty(after, row));
            (pages, protected)
        });
        let protected = pages[0].1 + pages[1].1;
        let Self { mut state, mut pending, mut recent, .. } = self.clone();
        let [(confirmed, _), (resolved, _)] = &mut pages;
        let lent = Lent { confirmed: confirmed.counts_mut(), resolved: resolved.counts_mut(), pending: &mut pending, recent: &mut recent };
        let survived = survives(|| connect(&mut state, lent, ids, height) == 0);
        if survived {
            assert!(bits(confirmed.counts()) == bits(&after.confirmed) && bits(resolved.counts()) == bits(&after.resolved), "other counts");
        }
        (protected, survived)
    }
}

fn ids(bytes: &[u8]) -> Vec<Txid> {
    bytes.iter().map(|byte| Txid([*byte; 32])).collect()
}

/// Nothing is stored to pages of empty rows, of which there are at least so many.
#[track_caller]
fn stores_nothing<B: Board>(memory: &Memory<B>, ids: &[Txid], height: u32, row: usize, least: usize) {
    let (protected, survived) = memory.watched(block_connected::<B>, ids, height, row);
    assert!(survived, "a store to a page of empty rows");
    assert!(protected >= least, "only {protected} pages are read-only");
}

/// The pages of a kind's counts, where each of them has only empty rows.
fn all_pages() -> usize {
    (COUNTS * size_of::<f64>()).div_ceil(page_size())
}

fn nothing_is_stored_on_an_empty_board<B: Board>() {
    let seen = Memory::<B>::fresh().connected(&[], 100);
    stores_nothing(&seen, &[], 100 + WIDEST_GAP, ROWS - 1, 2 * all_pages());
    stores_nothing(&seen.with_minus_zeros(), &[], 100 + WIDEST_GAP, ROWS - 1, 2 * all_pages());
}

fn only_rows_that_hold_something_are_stored<B: Board>() {
    for row in 0..ROWS {
        stores_nothing(&Memory::<B>::quad(), &ids(&[3]), 110, row, 6);
    }
    stores_nothing(&Memory::<B>::quad(), &[], 101 + WIDEST_GAP, 33, 6);
    stores_nothing(&Memory::<B>::quad().with_minus_zeros(), &[], 101 + WIDEST_GAP, 33, 6);
}

fn each_kind_is_judged_by_itself<B: Board>() {
    let late = Memory::<B>::fresh().entered(1, 5_000).connected(&[], 106);
    assert!((0..ROWS).all(|row| is_empty(&late.confirmed, row)) && !is_empty(&late.resolved, 33));
    stores_nothing(&late, &[], 140, 33, all_pages());
    let turned = Memory { confirmed: late.resolved, resolved: late.confirmed, ..Memory::<B>::fresh().connected(&[], 106) };
    stores_nothing(&turned, &[], 140, 33, all_pages());
}

/// As the library was before request L2: each height stores every count.
fn storing_all(state: &mut State, lent: Lent<'_>, _ids: &[Txid], height: u32) -> u32 {
    for _ in state[1]..u64::from(height) {
        lent.confirmed.iter_mut().chain(&mut *lent.resolved).for_each(|count| *count *= 0.998);
    }
    0
}

fn a_store_to_an_empty_row_is_noticed<B: Board>() {
    for memory in [Memory::<B>::fresh().connected(&[], 100), Memory::<B>::quad()] {
        for row in [0, 33, ROWS - 1] {
            let (protected, survived) = memory.watched(storing_all, &[], 102, row);
            assert!(protected > 0 && !survived);
        }
    }
}
