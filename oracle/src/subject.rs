//! The Rust module under comparison, compiled as it stands, and what its public calls do not show of it.

include!(env!("FEE_ESTIMATOR"));

impl FeeEstimator {
    /// The bucket that the Rust finds for a rate.
    pub fn bucket_of(&self, rate: u64) -> usize {
        self.bucket_index_for_rate(rate)
    }

    /// How many records are pending.
    pub fn pending_len(&self) -> usize {
        self.pending.len()
    }

    /// Whether the id is pending.
    pub fn is_pending(&self, id: &Txid) -> bool {
        self.pending.contains_key(id)
    }

    /// How many confirmed records there are after the skipped heights have pruned them and once all confirmations of the list are in: by the Rust's own steps,
    /// on a copy.
    pub fn held_once_listed(&self, confirmed_txids: &[Txid], block_height: u32) -> usize {
        let mut copy = Self::from_history_bytes(&self.to_history_bytes()).expect("the Rust reads what it wrote");
        if let Some(last_height) = copy.last_decayed_height {
            for skipped_height in last_height.saturating_add(1)..block_height {
                copy.advance_height(skipped_height);
            }
        }
        // No block is above this height: the call confirms the list, and does not advance.
        copy.last_decayed_height = Some(u32::MAX);
        copy.block_connected(confirmed_txids, block_height);
        copy.confirmed_at.len()
    }
}
