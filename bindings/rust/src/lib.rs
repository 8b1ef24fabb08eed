//! A bitcoin fee estimator whose every answer is proved, to be put where gosuda/bitcoin-rs's module `fee_estimator` was: the same methods and, for entries at or
//! above [`FLOOR`], the same estimates and the same history files, bit for bit. What is proved is the library below, whose functions `include/izrughem.h`
//! describes; this crate owns the memory that the library is lent, and calls it.
//!
//! ```
//! use izrughem::{FeeEstimator, Txid};
//!
//! let mut estimator = FeeEstimator::new();
//! for (byte, rate) in [(1, 5_000), (2, 5_000), (3, 1_000), (4, 1_000)] {
//!     estimator.tx_entered(Txid([byte; 32]), rate, 100);
//! }
//! estimator.block_connected(&[Txid([1; 32]), Txid([2; 32])], 101);
//!
//! assert_eq!(estimator.estimate(1).map(|rate| rate.as_sat_per_kvb()), Some(1_050));
//! assert_eq!(estimator.estimate(2).map(|rate| rate.as_sat_per_kvb()), Some(1_000));
//!
//! let history = estimator.to_history_bytes();
//! let restored = FeeEstimator::from_history_bytes(&history)?;
//! assert_eq!(restored.estimate(1), estimator.estimate(1));
//! # Ok::<(), izrughem::HistoryReject>(())
//! ```
//!
//! Each method has a neighbour, `try_..`, that tells why it did nothing, where it did nothing. An entry of a pending transaction or beyond 10,000, and the leave of
//! one that is not pending, are ignored by the original too. An entry below [`FLOOR`] the original counts with those at 1,000, whose success it drags down; here
//! it is refused. A block that is refused is one that the original takes ([`try_block_connected`](FeeEstimator::try_block_connected)). So a node that must not
//! lose a block looks at that answer:
//!
//! ```
//! use izrughem::{FeeEstimator, Refusal, Txid};
//!
//! let mut estimator = FeeEstimator::new();
//! let id = Txid([7; 32]);
//! assert_eq!(estimator.try_tx_entered(id, 2_000, 100), Ok(()));
//! assert_eq!(estimator.try_tx_entered(id, 2_000, 100), Err(Refusal::AlreadyPending));
//! assert_eq!(estimator.try_tx_entered(id, 999, 100), Err(Refusal::BelowFloor));
//! assert_eq!(estimator.try_tx_left(&id), Ok(()));
//! assert_eq!(estimator.try_tx_left(&id), Err(Refusal::Absent));
//! if let Err(refusal) = estimator.try_block_connected(&[id], 101) {
//!     eprintln!("block 101 is lost: {refusal}");
//! }
//! assert_eq!(estimator.last_height(), Some(101));
//! ```
//!
//! Batches that can wait for a day have an estimator of their own, [`WideFeeEstimator`]: the same methods on columns of 6 blocks, for targets of up to 150. The
//! original has none. A node gives both the same feed, and keeps a history of each, as neither reads the other's:
//!
//! ```
//! use izrughem::{FeeEstimator, HistoryReject, Txid, WideFeeEstimator};
//!
//! let id = |byte| Txid([byte; 32]);
//! let (mut soon, mut later) = (FeeEstimator::new(), WideFeeEstimator::new());
//! for (byte, rate) in [(1, 5_000), (2, 5_000), (3, 1_000), (4, 1_000)] {
//!     soon.tx_entered(id(byte), rate, 100);
//!     later.tx_entered(id(byte), rate, 100);
//! }
//! for (height, confirmed) in [(101, [id(1), id(2)]), (150, [id(3), id(4)])] {
//!     soon.block_connected(&confirmed, height);
//!     later.block_connected(&confirmed, height);
//! }
//!
//! // 50 blocks are more than the one waits for. The other has them in column 9, which is for targets from 49 to 54.
//! assert_eq!(soon.estimate(25).map(|rate| rate.as_sat_per_kvb()), Some(1_050));
//! assert_eq!(later.estimate(48).map(|rate| rate.as_sat_per_kvb()), Some(1_050));
//! assert_eq!(later.estimate(49).map(|rate| rate.as_sat_per_kvb()), Some(1_000));
//!
//! let history = later.to_history_bytes();
//! assert_eq!(FeeEstimator::from_history_bytes(&history).unwrap_err(), HistoryReject::UnknownVersion(3));
//! assert_eq!(WideFeeEstimator::from_history_bytes(&history)?.estimate(49), later.estimate(49));
//! # Ok::<(), izrughem::HistoryReject>(())
//! ```

#![deny(unsafe_code)]
#![deny(unsafe_op_in_unsafe_fn)]
#![warn(missing_docs)]

mod answers;
mod boards;
#[cfg(test)]
#[macro_use]
mod each_board;
mod estimator;
#[allow(unsafe_code)]
mod raw;

pub use answers::{FeeRate, HistoryReject, Refusal, Txid};
pub use boards::{Base, Board, Wide};
pub use estimator::Estimator;

/// The widest step from one height to the next that one call of the library makes.
pub const WIDEST_GAP: u32 = 4_096;

/// The lowest rate, in satoshi per kvB, that a transaction may enter with.
pub const FLOOR: u64 = 1_000;

/// The version of the library's interface that this crate is for: `IZR_VERSION` of `include/izrughem.h`.
const VERSION: u32 = 3;
/// What the library answers for a rate that has no bucket: `IZR_NO_BUCKET`.
const NO_BUCKET: u64 = 142;
/// 142 buckets of 25 columns.
const COUNTS: usize = 3_550;
/// The bytes of a pending record, and how many there may be.
const PENDING_SIZE: usize = 44;
const MOST_PENDING: usize = 10_000;
/// The bytes of a confirmed record, and how many there may be.
const RECENT_SIZE: usize = 36;
const MOST_RECENT: usize = 1_000_000;

/// Estimates the fee rate at which a transaction is confirmed within 1 to 25 blocks, from those that entered the mempool and those that blocks confirmed.
///
/// Each target has a column of counts of its own, and above 25 means 25. What is not confirmed is let go after 25 blocks. The history is of version 1.
pub type FeeEstimator = Estimator<Base>;

/// Estimates the fee rate at which a transaction is confirmed within 1 to 150 blocks, for batches that can wait: a [`FeeEstimator`] with columns of 6 blocks.
///
/// Targets 1 to 6 have the first column and 145 to 150 the last, and above 150 means 150. What is not confirmed is let go after 150 blocks. Counts fade more
/// slowly: at each height they are multiplied by 0.9995, not by 0.998. The history is of version 3. What the methods say of the original is about [`FeeEstimator`].
pub type WideFeeEstimator = Estimator<Wide>;

/// Another version of the interface would read and write other memory than this crate lends.
fn expect_version(library: u32) {
    assert!(
        library == VERSION,
        "libizrughem.a has version {library} of its interface, and this crate is for version {VERSION}: build both from the same sources"
    );
}

/// The bucket, from 0 to 141, that a rate in satoshi per kvB belongs to. Below [`FLOOR`] there is none.
#[must_use]
pub fn bucket_index_for_rate(fee_rate_sat_per_kvb: u64) -> Option<usize> {
    let bucket = raw::bucket_index_for_rate(fee_rate_sat_per_kvb);
    (bucket != NO_BUCKET).then(|| usize::try_from(bucket).expect("a bucket is below 142"))
}
