//! The base board over memory that is lent by hand, through the C ABI: for tables with unused places, which the bindings never lend.

use crate::inputs::{HEIGHT, Id};
use crate::rows::Call;
use crate::sides::Estimator;

const COUNTS: usize = 3_550;
const PENDING_SIZE: usize = 44;
const RECENT_SIZE: usize = 36;
/// The bytes of a history that has a last height, beside its records.
const HISTORY_SIZE: usize = 57_965;
const DONE: u32 = 0;
const ABSENT: u32 = 4;
const GAP_TOO_WIDE: u32 = 6;
const BELOW_FLOOR: u32 = 16;

unsafe extern "C" {
    fn izr_tx_entered(
        state: *mut u64,
        state_len: usize,
        pending: *mut u8,
        pending_len: usize,
        id: *const u8,
        id_len: usize,
        rate: u64,
        height: u32,
    ) -> u32;
    fn izr_tx_left(state: *mut u64, state_len: usize, pending: *mut u8, pending_len: usize, id: *const u8, id_len: usize) -> u32;
    fn izr_block_connected(
        state: *mut u64,
        state_len: usize,
        confirmed: *mut f64,
        confirmed_len: usize,
        resolved: *mut f64,
        resolved_len: usize,
        pending: *mut u8,
        pending_len: usize,
        recent: *mut u8,
        recent_len: usize,
        ids: *const u8,
        ids_len: usize,
        height: u32,
    ) -> u32;
    fn izr_from_history_bytes(
        bytes: *const u8,
        bytes_len: usize,
        confirmed: *mut f64,
        confirmed_len: usize,
        resolved: *mut f64,
        resolved_len: usize,
        pending: *mut u8,
        pending_len: usize,
        recent: *mut u8,
        recent_len: usize,
        state: *mut u64,
        state_len: usize,
        carried: *mut u64,
        carried_len: usize,
    ) -> u32;
}

/// An estimator: its state, and what is lent.
pub struct Lent {
    state: [u64; 4],
    confirmed: Vec<f64>,
    resolved: Vec<f64>,
    pending: Vec<u8>,
    recent: Vec<u8>,
}

impl Lent {
    fn enter(&mut self, id: &Id, rate: u64, height: u32) -> u32 {
        let Self { state, pending, .. } = self;
        // SAFETY: two `&mut` slices and a `&`, each with its own length.
        unsafe { izr_tx_entered(state.as_mut_ptr(), state.len(), pending.as_mut_ptr(), pending.len(), id.as_ptr(), id.len(), rate, height) }
    }

    fn leave(&mut self, id: &Id) -> u32 {
        let Self { state, pending, .. } = self;
        // SAFETY: two `&mut` slices and a `&`, each with its own length.
        unsafe { izr_tx_left(state.as_mut_ptr(), state.len(), pending.as_mut_ptr(), pending.len(), id.as_ptr(), id.len()) }
    }

    fn block(&mut self, ids: &[Id], height: u32) -> u32 {
        let Self { state, confirmed, resolved, pending, recent } = self;
        // SAFETY: five `&mut` slices and a `&`, each with its own length; the list is so many times 32 bytes.
        unsafe {
            izr_block_connected(
                state.as_mut_ptr(),
                state.len(),
                confirmed.as_mut_ptr(),
                confirmed.len(),
                resolved.as_mut_ptr(),
                resolved.len(),
                pending.as_mut_ptr(),
                pending.len(),
                recent.as_mut_ptr(),
                recent.len(),
                ids.as_ptr().cast(),
                size_of_val(ids),
                height,
            )
        }
    }

    fn read(&mut self, bytes: &[u8]) -> u32 {
        let Self { state, confirmed, resolved, pending, recent } = self;
        let mut carried = 0;
        // SAFETY: a `&` slice, five `&mut` slices and a word, each with its own length.
        unsafe {
            izr_from_history_bytes(
                bytes.as_ptr(),
                bytes.len(),
                confirmed.as_mut_ptr(),
                confirmed.len(),
                resolved.as_mut_ptr(),
                resolved.len(),
                pending.as_mut_ptr(),
                pending.len(),
                recent.as_mut_ptr(),
                recent.len(),
                state.as_mut_ptr(),
                state.len(),
                &mut carried,
                1,
            )
        }
    }
}

impl Estimator for Lent {
    const WIDTH: u32 = 1;
    type Id = Id;

    fn id(bytes: &Id) -> Self::Id {
        *bytes
    }

    fn tx_entered(&mut self, id: Self::Id, rate: u64, height: u32) {
        assert_eq!(self.enter(&id, rate, height), DONE);
    }

    fn tx_left(&mut self, id: &Self::Id) {
        assert_eq!(self.leave(id), DONE);
    }

    fn block_connected(&mut self, ids: &[Self::Id], height: u32) {
        assert_eq!(self.block(ids, height), DONE);
    }

    fn estimate(&self, _: u32) -> Option<u64> {
        unimplemented!("no table is judged, so no place is unused")
    }

    fn to_history_bytes(&self) -> Vec<u8> {
        unimplemented!("no row writes from such tables")
    }

    fn from_history_bytes(bytes: &[u8]) -> Self {
        let records = bytes.len() - HISTORY_SIZE;
        let (pending, recent) = (vec![0; records / PENDING_SIZE * PENDING_SIZE], vec![0; records / RECENT_SIZE * RECENT_SIZE]);
        let mut read = Self { state: [0; 4], confirmed: vec![0.0; COUNTS], resolved: vec![0.0; COUNTS], pending, recent };
        assert_eq!(read.read(bytes), DONE);
        read
    }

    /// The table that the call is about gets so many places, and the other one just as many as it uses.
    fn lend(&mut self, call: Call, places: usize) {
        let used = |word: u64| usize::try_from(word).expect("a used number");
        let (pending, recent) = (used(self.state[2]), used(self.state[3]));
        let (pending, recent) = if let Call::Block(_) = call { (pending, places) } else { (places, recent) };
        self.pending.resize(pending * PENDING_SIZE, 0);
        self.recent.resize(recent * RECENT_SIZE, 0);
    }

    fn judge(&mut self, call: Call) -> bool {
        match call {
            Call::Enter => self.enter(&[0; 32], izrughem::FLOOR - 1, HEIGHT) == BELOW_FLOOR,
            Call::Leave => self.leave(&[0; 32]) == ABSENT,
            Call::Block(_) => self.block(&[], HEIGHT + izrughem::WIDEST_GAP + 1) == GAP_TOO_WIDE,
            _ => unimplemented!("no such row"),
        }
    }
}
