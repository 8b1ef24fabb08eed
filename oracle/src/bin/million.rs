//! The Rust's own fault (docs/DIFFERENCES.md): with more than 1,000,000 confirmed records it writes a history that its own reader rejects.

extern crate alloc;

#[allow(dead_code)]
#[path = "../subject.rs"]
mod subject;

use bitcoin_rs_primitives::{Hash256, Txid};
use subject::FeeEstimator;

/// As many ids as can be pending at once.
const ROUND: u32 = 10_000;

fn id(n: u32) -> Txid {
    let mut bytes = [0; 32];
    bytes[..4].copy_from_slice(&n.to_be_bytes());
    Txid(Hash256::from_le_bytes(&bytes))
}

/// An estimator after `records` ids were entered and confirmed, all at height 1, at most 10,000 to a block.
fn after(records: u32) -> FeeEstimator {
    let mut estimator = FeeEstimator::new();
    for first in (0..records).step_by(ROUND as usize) {
        let ids: Vec<Txid> = (first..records.min(first + ROUND)).map(id).collect();
        for &id in &ids {
            estimator.tx_entered(id, 1_000, 1);
        }
        estimator.block_connected(&ids, 1);
    }
    estimator
}

fn main() {
    for records in [1_000_000, 1_000_001] {
        let file = after(records).to_history_bytes();
        let read = FeeEstimator::from_history_bytes(&file).map(|_| "accepted");
        println!("{records} confirmed records: {} bytes written, read back: {read:?}", file.len());
    }
}
