//! The sides behind one trait, and the processor's clock.

use crate::inputs::{HEIGHT, Id};
use crate::rows::Call;
use std::hint::black_box;
use std::time::Duration;

/// The calls of an estimator.
pub trait Estimator: Sized + 'static {
    /// How many blocks a column is wide.
    const WIDTH: u32;
    type Id: Copy + 'static;
    fn id(bytes: &Id) -> Self::Id;
    fn tx_entered(&mut self, id: Self::Id, rate: u64, height: u32);
    fn tx_left(&mut self, id: &Self::Id);
    fn block_connected(&mut self, ids: &[Self::Id], height: u32);
    fn estimate(&self, target: u32) -> Option<u64>;
    fn to_history_bytes(&self) -> Vec<u8>;
    fn from_history_bytes(bytes: &[u8]) -> Self;
    /// Lends a table of so many places. No other side but that which lends by hand has a say in it.
    fn lend(&mut self, _call: Call, _places: usize) {}
    /// Makes the call so that it is refused (or, an estimate, answered without a look at a bucket) once all memory that it uses has been judged; whether it was.
    fn judge(&mut self, _call: Call) -> bool {
        unimplemented!("the original judges nothing")
    }
}

impl Estimator for original::FeeEstimator {
    const WIDTH: u32 = 1;
    type Id = original::Id;

    fn id(bytes: &Id) -> Self::Id {
        original::id(bytes)
    }

    fn tx_entered(&mut self, id: Self::Id, rate: u64, height: u32) {
        self.tx_entered(id, rate, height);
    }

    fn tx_left(&mut self, id: &Self::Id) {
        self.tx_left(id);
    }

    fn block_connected(&mut self, ids: &[Self::Id], height: u32) {
        self.block_connected(ids, height);
    }

    fn estimate(&self, target: u32) -> Option<u64> {
        self.estimate(target).map(original::FeeRate::as_sat_per_kvb)
    }

    fn to_history_bytes(&self) -> Vec<u8> {
        self.to_history_bytes()
    }

    fn from_history_bytes(bytes: &[u8]) -> Self {
        original::read(bytes).unwrap_or_else(|reject| panic!("refused: {reject:?}"))
    }
}

/// One of the library's estimators, and how many blocks a column of its board is wide.
macro_rules! library {
    ($estimator:ty, $width:literal) => {
        impl Estimator for $estimator {
            const WIDTH: u32 = $width;
            type Id = izrughem::Txid;

            fn id(bytes: &Id) -> Self::Id {
                izrughem::Txid(*bytes)
            }

            fn tx_entered(&mut self, id: Self::Id, rate: u64, height: u32) {
                self.try_tx_entered(id, rate, height).expect("it enters");
            }

            fn tx_left(&mut self, id: &Self::Id) {
                self.try_tx_left(id).expect("it leaves");
            }

            fn block_connected(&mut self, ids: &[Self::Id], height: u32) {
                self.try_block_connected(ids, height).expect("it is connected");
            }

            fn estimate(&self, target: u32) -> Option<u64> {
                self.estimate(target).map(izrughem::FeeRate::as_sat_per_kvb)
            }

            fn to_history_bytes(&self) -> Vec<u8> {
                self.to_history_bytes()
            }

            fn from_history_bytes(bytes: &[u8]) -> Self {
                Self::from_history_bytes(bytes).expect("it is read")
            }

            fn judge(&mut self, call: Call) -> bool {
                match call {
                    Call::Enter => self.try_tx_entered(izrughem::Txid([0; 32]), izrughem::FLOOR - 1, HEIGHT).is_err(),
                    Call::Leave => self.try_tx_left(&izrughem::Txid([0; 32])).is_err(),
                    Call::Block(_) | Call::Gap(_) => self.try_block_step(&[], HEIGHT + izrughem::WIDEST_GAP + 1).is_err(),
                    Call::Estimate(targets) => (0..targets).all(|_| self.try_estimate(black_box(0)) == Ok(None)),
                    Call::Write => self.try_to_history_bytes(&mut []).is_err(),
                    Call::Read(_) => unreachable!("reading judges the file, which is its work"),
                }
            }
        }
    };
}

library!(izrughem::FeeEstimator, 1);
library!(izrughem::WideFeeEstimator, 6);

/// The time that this thread has had on a processor: other programs on the machine do not add to it.
pub fn processor_time() -> Duration {
    #[repr(C)]
    struct Timespec {
        seconds: i64,
        nanoseconds: i64,
    }
    unsafe extern "C" {
        fn clock_gettime(clock: i32, time: *mut Timespec) -> i32;
    }
    const CLOCK_THREAD_CPUTIME_ID: i32 = 3;
    let mut time = Timespec { seconds: 0, nanoseconds: 0 };
    // SAFETY: a C function that writes one timespec, as Linux has it on 64 bits, through the pointer.
    let status = unsafe { clock_gettime(CLOCK_THREAD_CPUTIME_ID, &mut time) };
    assert_eq!(status, 0, "clock_gettime");
    Duration::new(time.seconds.unsigned_abs(), u32::try_from(time.nanoseconds).expect("below a second"))
}
