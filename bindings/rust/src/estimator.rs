//! The estimator: it owns the memory that the library is lent, and is the same for each board.

use crate::answers::{FeeRate, HistoryReject, Refusal, Txid, answered};
use crate::boards::Board;
use crate::raw::{self, Lent, State};
use crate::{COUNTS, MOST_PENDING, MOST_RECENT, PENDING_SIZE, RECENT_SIZE, WIDEST_GAP, expect_version};
use std::fmt;
use std::marker::PhantomData;

/// An estimator on a board. By name: [`FeeEstimator`](crate::FeeEstimator) and [`WideFeeEstimator`](crate::WideFeeEstimator).
#[derive(Clone)]
pub struct Estimator<B: Board> {
    board: PhantomData<B>,
    state: State,
    confirmed: Box<[f64]>,
    resolved: Box<[f64]>,
    /// Between calls a table is as long as its used records: an unused place costs each call that judges it.
    pending: Vec<u8>,
    recent: Vec<u8>,
}

impl<B: Board> Estimator<B> {
    /// An estimator that has seen nothing.
    ///
    /// # Panics
    /// Where the library that was linked is of another version than this crate.
    #[must_use]
    pub fn new() -> Self {
        let mut fresh = Self::lending(0, 0);
        let Self { state, confirmed, resolved, pending, recent, .. } = &mut fresh;
        let answer = raw::new::<B>(state, Lent { confirmed, resolved, pending, recent });
        debug_assert_eq!(answer, 0);
        fresh
    }

    /// Zeros in the place of counts, and tables with room for so many records. Every estimator begins here, so the library's version is looked at here.
    fn lending(pending: usize, recent: usize) -> Self {
        expect_version(raw::version());
        Self {
            board: PhantomData,
            state: [0; 4],
            confirmed: vec![0.0; COUNTS].into(),
            resolved: vec![0.0; COUNTS].into(),
            pending: vec![0; pending * PENDING_SIZE],
            recent: vec![0; recent * RECENT_SIZE],
        }
    }

    /// Cuts the tables to their used records. What is cut off is zero.
    fn trim(&mut self) {
        self.pending.truncate(self.pending_len() * PENDING_SIZE);
        self.recent.truncate(self.confirmed_len() * RECENT_SIZE);
    }

    /// A transaction enters the mempool at a height. One below [`FLOOR`](crate::FLOOR) is ignored (the original counts it with those at 1,000), and so is one that is
    /// pending already, or that comes when 10,000 are.
    pub fn tx_entered(&mut self, txid: Txid, fee_rate_sat_per_kvb: u64, height: u32) {
        let _ignored = self.try_tx_entered(txid, fee_rate_sat_per_kvb, height);
    }

    /// [`tx_entered`](Self::tx_entered), with its answer.
    ///
    /// # Errors
    /// [`BelowFloor`](Refusal::BelowFloor), [`AlreadyPending`](Refusal::AlreadyPending), [`PendingFull`](Refusal::PendingFull).
    pub fn try_tx_entered(&mut self, txid: Txid, fee_rate_sat_per_kvb: u64, height: u32) -> Result<(), Refusal> {
        let room = (self.pending_len() + 1).min(MOST_PENDING);
        self.pending.resize(room * PENDING_SIZE, 0);
        let answer = raw::tx_entered::<B>(&mut self.state, &mut self.pending, &txid, fee_rate_sat_per_kvb, height);
        self.trim();
        answered(answer, 0)
    }

    /// A transaction leaves the mempool unconfirmed. One that is not pending is ignored.
    pub fn tx_left(&mut self, txid: &Txid) {
        let _ignored = self.try_tx_left(txid);
    }

    /// [`tx_left`](Self::tx_left), with its answer.
    ///
    /// # Errors
    /// [`Absent`](Refusal::Absent).
    pub fn try_tx_left(&mut self, txid: &Txid) -> Result<(), Refusal> {
        let answer = raw::tx_left::<B>(&mut self.state, &mut self.pending, txid);
        self.trim();
        answered(answer, 0)
    }

    /// A block is connected at a height, and confirms the listed transactions. Heights that were skipped are gone through first, however many they are.
    ///
    /// Where [`try_block_connected`](Self::try_block_connected) is refused the block is ignored, and the original goes on. It is the one call here that can lose
    /// what the original keeps.
    pub fn block_connected(&mut self, confirmed_txids: &[Txid], block_height: u32) {
        let _ignored = self.try_block_connected(confirmed_txids, block_height);
    }

    /// [`block_connected`](Self::block_connected), with its answer. It is done as a whole or, refused, changes nothing: no skipped height is gone through.
    ///
    /// After a block that was above the last height and was not refused, [`last_height`](Self::last_height) is the block's height.
    ///
    /// # Errors
    /// [`ConfirmedFull`](Refusal::ConfirmedFull): the block would leave more than 1,000,000 confirmed records, counted once the skipped heights have let go of
    /// the old ones and all of its list is in, and before its own height lets go of any. (The original goes on, and then writes a history that it does not read
    /// again.) One block to a height never leads there: the records of 27 heights are kept at most, 10,000 of each. A restored history can, and so can blocks
    /// at or below the last height, which let go of no record.
    pub fn try_block_connected(&mut self, confirmed_txids: &[Txid], block_height: u32) -> Result<(), Refusal> {
        let answer = self.try_block_step(confirmed_txids, block_height);
        if answer != Err(Refusal::GapTooWide) {
            return answer;
        }
        let mut ahead = self.clone();
        ahead.come_near(block_height);
        ahead.try_block_step(confirmed_txids, block_height)?;
        *self = ahead;
        Ok(())
    }

    /// Goes through heights, by blocks of no ids, until this one is no more than [`WIDEST_GAP`] above the last. A block there is then what it would have been
    /// without.
    fn come_near(&mut self, height: u32) {
        while let Some(last) = self.last_height()
            && height.saturating_sub(last) > WIDEST_GAP
        {
            self.try_block_step(&[], last + WIDEST_GAP).expect("a block of no ids within the widest gap");
        }
    }

    /// [`try_block_connected`](Self::try_block_connected) over at most [`WIDEST_GAP`] heights, as one call of the library: its work is bounded.
    ///
    /// # Errors
    /// [`GapTooWide`](Refusal::GapTooWide), [`ConfirmedFull`](Refusal::ConfirmedFull).
    pub fn try_block_step(&mut self, confirmed_txids: &[Txid], block_height: u32) -> Result<(), Refusal> {
        let listed = confirmed_txids.len().min(self.pending_len());
        let room = (self.confirmed_len() + listed).min(MOST_RECENT);
        self.recent.resize(room * RECENT_SIZE, 0);
        let Self { state, confirmed, resolved, pending, recent, .. } = self;
        let answer = raw::block_connected::<B>(state, Lent { confirmed, resolved, pending, recent }, confirmed_txids, block_height);
        self.trim();
        answered(answer, 0)
    }

    /// The lowest rate at which a transaction is confirmed within so many blocks, if there is one. Above 25 means 25; of a
    /// [`WideFeeEstimator`](crate::WideFeeEstimator), above 150 means 150.
    #[must_use]
    pub fn estimate(&self, conf_target_blocks: u32) -> Option<FeeRate> {
        self.try_estimate(conf_target_blocks).unwrap_or_default()
    }

    /// [`estimate`](Self::estimate), with its answer.
    ///
    /// # Errors
    /// None that a method of this type leads to.
    pub fn try_estimate(&self, conf_target_blocks: u32) -> Result<Option<FeeRate>, Refusal> {
        let mut rate = 0;
        let answer = raw::estimate::<B>(&self.state, &self.confirmed, &self.resolved, conf_target_blocks, &mut rate);
        answered(answer, 0)?;
        Ok((rate != 0).then_some(FeeRate::new(rate)))
    }

    /// The history file of this estimator.
    #[must_use]
    pub fn to_history_bytes(&self) -> Vec<u8> {
        let mut out = vec![0; self.history_len()];
        let written = self.try_to_history_bytes(&mut out).expect("an output of the history's length");
        out.truncate(written);
        out
    }

    /// [`to_history_bytes`](Self::to_history_bytes) into the first bytes of an output, with the number of bytes that were written.
    ///
    /// # Errors
    /// [`ShortOutput`](Refusal::ShortOutput).
    pub fn try_to_history_bytes(&self, out: &mut [u8]) -> Result<usize, Refusal> {
        let Self { state, confirmed, resolved, pending, recent, .. } = self;
        let mut carried = 0;
        let answer = raw::to_history_bytes::<B>(state, confirmed, resolved, pending, recent, out, &mut carried);
        answered(answer, carried)?;
        Ok(usize::try_from(carried).expect("a length is a usize"))
    }

    /// The estimator of a history file.
    ///
    /// # Errors
    /// The bytes are no history of an estimator on this board: that of the other one is [`UnknownVersion`](HistoryReject::UnknownVersion).
    ///
    /// # Panics
    /// As [`new`](Self::new).
    pub fn from_history_bytes(bytes: &[u8]) -> Result<Self, HistoryReject> {
        Self::try_from_history_bytes(bytes).map_err(|refusal| match refusal {
            Refusal::BadMagic => HistoryReject::BadMagic,
            Refusal::UnknownVersion(version) => HistoryReject::UnknownVersion(version),
            _ => HistoryReject::Corrupt,
        })
    }

    /// [`from_history_bytes`](Self::from_history_bytes), with its answer.
    ///
    /// # Errors
    /// [`BadMagic`](Refusal::BadMagic), [`UnknownVersion`](Refusal::UnknownVersion), [`Corrupt`](Refusal::Corrupt).
    pub fn try_from_history_bytes(bytes: &[u8]) -> Result<Self, Refusal> {
        let records = bytes.len().saturating_sub(B::HISTORY_SIZE);
        let mut read = Self::lending((records / PENDING_SIZE).min(MOST_PENDING), (records / RECENT_SIZE).min(MOST_RECENT));
        let Self { state, confirmed, resolved, pending, recent, .. } = &mut read;
        let mut version = 0;
        let answer = raw::from_history_bytes::<B>(bytes, Lent { confirmed, resolved, pending, recent }, state, &mut version);
        answered(answer, version)?;
        read.trim();
        Ok(read)
    }

    /// The last height: that of the highest block since the start, or of the restored history where that is higher; none before the first.
    #[must_use]
    pub fn last_height(&self) -> Option<u32> {
        let [has_last, height, ..] = self.state;
        (has_last == 1).then(|| u32::try_from(height).expect("a height has 32 bits"))
    }

    /// How many transactions are pending.
    #[must_use]
    pub fn pending_len(&self) -> usize {
        usize::try_from(self.state[2]).expect("a used number is a usize")
    }

    /// How many confirmed records of recent blocks there are.
    #[must_use]
    pub fn confirmed_len(&self) -> usize {
        usize::try_from(self.state[3]).expect("a used number is a usize")
    }

    /// The bytes that this estimator's history has.
    #[must_use]
    pub fn history_len(&self) -> usize {
        let height = if self.last_height().is_some() { 4 } else { 0 };
        B::HISTORY_SIZE + height + self.pending_len() * PENDING_SIZE + self.confirmed_len() * RECENT_SIZE
    }
}

impl<B: Board> Default for Estimator<B> {
    fn default() -> Self {
        Self::new()
    }
}

impl<B: Board> fmt::Debug for Estimator<B> {
    fn fmt(&self, f: &mut fmt::Formatter<'_>) -> fmt::Result {
        f.debug_struct(B::ESTIMATOR)
            .field("last_height", &self.last_height())
            .field("pending", &self.pending_len())
            .field("confirmed", &self.confirmed_len())
            .finish_non_exhaustive()
    }
}
