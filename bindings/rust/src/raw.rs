//! The boundary: the functions of `include/izrughem.h`, each behind a function on slices. All `unsafe` code is here.
//!
//! Why each call is sound: the library reads and writes nothing but what the pointers and lengths of its slices give it, keeps none of them, and asks nothing
//! of the values behind them (its functions have no precondition, and each is proved to stay within its slices for all contents). A slice of Rust is aligned,
//! not null and valid for its length, and those lent as `&mut` overlap no other. That holds for each board: [`Calls`] are made nowhere but here.

use crate::Txid;
use crate::boards::Board;

#[cfg(test)]
mod pages;
#[cfg(test)]
mod room;
#[cfg(test)]
mod tests;

/// The state: whether there is a last height, the height, and how many pending and confirmed records are used.
pub type State = [u64; 4];

unsafe extern "C" {
    safe fn izr_version() -> u32;
    safe fn izr_bucket_index_for_rate(rate: u64) -> u64;
}

/// Declares the functions that each board has under a name of its own, first the base board's and then the wide one's, and gathers those of a board.
macro_rules! calls {
    ($($call:ident: $base:ident, $wide:ident($($parameter:ident: $kind:ty),* $(,)?);)*) => {
        unsafe extern "C" {
            $(
                fn $base($($parameter: $kind),*) -> u32;
                fn $wide($($parameter: $kind),*) -> u32;
            )*
        }

        /// The functions of a board.
        pub struct Calls {
            $($call: unsafe extern "C" fn($($parameter: $kind),*) -> u32,)*
        }

        pub const BASE: Calls = Calls { $($call: $base),* };
        pub const WIDE: Calls = Calls { $($call: $wide),* };
    };
}

calls! {
    new: izr_new, izr_wide_new(
        confirmed: *mut f64,
        confirmed_len: usize,
        resolved: *mut f64,
        resolved_len: usize,
        pending: *mut u8,
        pending_len: usize,
        recent: *mut u8,
        recent_len: usize,
        state: *mut u64,
        state_len: usize,
    );
    tx_entered: izr_tx_entered, izr_wide_tx_entered(
        state: *mut u64,
        state_len: usize,
        pending: *mut u8,
        pending_len: usize,
        id: *const u8,
        id_len: usize,
        rate: u64,
        height: u32,
    );
    tx_left: izr_tx_left, izr_wide_tx_left(
        state: *mut u64,
        state_len: usize,
        pending: *mut u8,
        pending_len: usize,
        id: *const u8,
        id_len: usize,
    );
    block_connected: izr_block_connected, izr_wide_block_connected(
        state: *mut u64,
        state_len: usize,
        confirmed: *mut f64,
        confirmed_len: usize,
        resolved: *mut f64,
        resolved_len: usize,
        pending: *mut u8,
        pending_len: usize,
        recent: *mut u8,
        recent_len: usize,
        ids: *const u8,
        ids_len: usize,
        height: u32,
    );
    estimate: izr_estimate, izr_wide_estimate(
        state: *const u64,
        state_len: usize,
        confirmed: *const f64,
        confirmed_len: usize,
        resolved: *const f64,
        resolved_len: usize,
        target: u32,
        carried: *mut u64,
        carried_len: usize,
    );
    to_history_bytes: izr_to_history_bytes, izr_wide_to_history_bytes(
        state: *const u64,
        state_len: usize,
        confirmed: *const f64,
        confirmed_len: usize,
        resolved: *const f64,
        resolved_len: usize,
        pending: *const u8,
        pending_len: usize,
        recent: *const u8,
        recent_len: usize,
        out: *mut u8,
        out_len: usize,
        carried: *mut u64,
        carried_len: usize,
    );
    from_history_bytes: izr_from_history_bytes, izr_wide_from_history_bytes(
        bytes: *const u8,
        bytes_len: usize,
        confirmed: *mut f64,
        confirmed_len: usize,
        resolved: *mut f64,
        resolved_len: usize,
        pending: *mut u8,
        pending_len: usize,
        recent: *mut u8,
        recent_len: usize,
        state: *mut u64,
        state_len: usize,
        carried: *mut u64,
        carried_len: usize,
    );
}

/// The lent memory of a call that changes it.
pub struct Lent<'a> {
    pub confirmed: &'a mut [f64],
    pub resolved: &'a mut [f64],
    pub pending: &'a mut [u8],
    pub recent: &'a mut [u8],
}

pub fn version() -> u32 {
    izr_version()
}

pub fn new<B: Board>(state: &mut State, lent: Lent<'_>) -> u32 {
    // SAFETY: five `&mut` slices, each with its own length.
    unsafe {
        (B::CALLS.new)(
            lent.confirmed.as_mut_ptr(),
            lent.confirmed.len(),
            lent.resolved.as_mut_ptr(),
            lent.resolved.len(),
            lent.pending.as_mut_ptr(),
            lent.pending.len(),
            lent.recent.as_mut_ptr(),
            lent.recent.len(),
            state.as_mut_ptr(),
            state.len(),
        )
    }
}

pub fn tx_entered<B: Board>(state: &mut State, pending: &mut [u8], id: &Txid, rate: u64, height: u32) -> u32 {
    let id = id.as_bytes();
    // SAFETY: two `&mut` slices and a `&`, each with its own length.
    unsafe {
        (B::CALLS.tx_entered)(state.as_mut_ptr(), state.len(), pending.as_mut_ptr(), pending.len(), id.as_ptr(), id.len(), rate, height)
    }
}

pub fn tx_left<B: Board>(state: &mut State, pending: &mut [u8], id: &Txid) -> u32 {
    let id = id.as_bytes();
    // SAFETY: two `&mut` slices and a `&`, each with its own length.
    unsafe { (B::CALLS.tx_left)(state.as_mut_ptr(), state.len(), pending.as_mut_ptr(), pending.len(), id.as_ptr(), id.len()) }
}

pub fn block_connected<B: Board>(state: &mut State, lent: Lent<'_>, ids: &[Txid], height: u32) -> u32 {
    // SAFETY: five `&mut` slices and a `&`, each with its own length; a `Txid` is its 32 bytes (`repr(transparent)`), so the list is as many times 32 bytes.
    unsafe {
        (B::CALLS.block_connected)(
            state.as_mut_ptr(),
            state.len(),
            lent.confirmed.as_mut_ptr(),
            lent.confirmed.len(),
            lent.resolved.as_mut_ptr(),
            lent.resolved.len(),
            lent.pending.as_mut_ptr(),
            lent.pending.len(),
            lent.recent.as_mut_ptr(),
            lent.recent.len(),
            ids.as_ptr().cast(),
            size_of_val(ids),
            height,
        )
    }
}

pub fn estimate<B: Board>(state: &State, confirmed: &[f64], resolved: &[f64], target: u32, carried: &mut u64) -> u32 {
    // SAFETY: three `&` slices and a `&mut` word, each with its own length.
    unsafe {
        (B::CALLS.estimate)(
            state.as_ptr(),
            state.len(),
            confirmed.as_ptr(),
            confirmed.len(),
            resolved.as_ptr(),
            resolved.len(),
            target,
            carried,
            1,
        )
    }
}

pub fn bucket_index_for_rate(rate: u64) -> u64 {
    izr_bucket_index_for_rate(rate)
}

pub fn to_history_bytes<B: Board>(
    state: &State,
    confirmed: &[f64],
    resolved: &[f64],
    pending: &[u8],
    recent: &[u8],
    out: &mut [u8],
    carried: &mut u64,
) -> u32 {
    // SAFETY: five `&` slices, a `&mut` slice and a `&mut` word, each with its own length.
    unsafe {
        (B::CALLS.to_history_bytes)(
            state.as_ptr(),
            state.len(),
            confirmed.as_ptr(),
            confirmed.len(),
            resolved.as_ptr(),
            resolved.len(),
            pending.as_ptr(),
            pending.len(),
            recent.as_ptr(),
            recent.len(),
            out.as_mut_ptr(),
            out.len(),
            carried,
            1,
        )
    }
}

pub fn from_history_bytes<B: Board>(bytes: &[u8], lent: Lent<'_>, state: &mut State, carried: &mut u64) -> u32 {
    // SAFETY: a `&` slice, five `&mut` slices and a `&mut` word, each with its own length.
    unsafe {
        (B::CALLS.from_history_bytes)(
            bytes.as_ptr(),
            bytes.len(),
            lent.confirmed.as_mut_ptr(),
            lent.confirmed.len(),
            lent.resolved.as_mut_ptr(),
            lent.resolved.len(),
            lent.pending.as_mut_ptr(),
            lent.pending.len(),
            lent.recent.as_mut_ptr(),
            lent.recent.len(),
            state.as_mut_ptr(),
            state.len(),
            carried,
            1,
        )
    }
}
