//! The boards that there are, and what an estimator must know of its own.

use crate::raw::{BASE, Calls, WIDE};

/// What an estimator must know of its board. No other crate can name it, so none can add a board.
pub trait Known {
    /// The board's functions in the library.
    const CALLS: Calls;
    /// What its estimator is called.
    const ESTIMATOR: &'static str;
    /// The bytes of a history with no last height and no record.
    const HISTORY_SIZE: usize;
}

/// What an estimator counts on: [`Base`] or [`Wide`], and nothing else.
pub trait Board: Known + Clone + Send + Sync + 'static {}

/// The board of a [`FeeEstimator`](crate::FeeEstimator): 25 columns of 1 block, and every count times 0.998 at each height.
#[derive(Clone, Debug)]
pub enum Base {}

/// The board of a [`WideFeeEstimator`](crate::WideFeeEstimator): 25 columns of 6 blocks, and every count times 0.9995 at each height.
#[derive(Clone, Debug)]
pub enum Wide {}

impl Known for Base {
    const CALLS: Calls = BASE;
    const ESTIMATOR: &'static str = "FeeEstimator";
    const HISTORY_SIZE: usize = 57_961;
}

impl Known for Wide {
    const CALLS: Calls = WIDE;
    const ESTIMATOR: &'static str = "WideFeeEstimator";
    const HISTORY_SIZE: usize = 57_965;
}

impl Board for Base {}
impl Board for Wide {}
