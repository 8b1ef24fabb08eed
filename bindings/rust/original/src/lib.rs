//! The Rust module, compiled as it stands, and its reading of histories, which it keeps to its crate.

extern crate alloc;

pub use bitcoin_rs_primitives::{Hash256, Txid as Id};

include!(env!("FEE_ESTIMATOR"));

/// Why the module refuses a history, as document 01's number with the version that it carries.
pub type Reject = (u32, Option<u32>);

/// The estimator of a history.
pub fn read(bytes: &[u8]) -> Result<FeeEstimator, Reject> {
    FeeEstimator::from_history_bytes(bytes).map_err(|reject| match reject {
        HistoryReject::BadMagic => (8, None),
        HistoryReject::UnknownVersion(version) => (9, Some(version)),
        HistoryReject::Corrupt => (10, None),
    })
}

/// An id of these bytes.
#[must_use]
pub const fn id(bytes: &[u8; 32]) -> Id {
    bitcoin_rs_primitives::Txid(Hash256::from_le_bytes(bytes))
}
