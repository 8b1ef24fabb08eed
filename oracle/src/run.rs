//! A run of a script: each operation over the lent memory and the Rust estimator that stands for it.
//!
//! The memory decides the refusals that the Rust does not know. Whatever is not refused the Rust object does, and its history file is laid
//! back into the memory. Damage parts the two; the next call then gets an estimator restored from the memory, if that is sound.

use crate::memory::{self, Memory, Part};
use crate::script::{Call, Counts, Damage, Op, Table};
use crate::subject::{FeeEstimator, HistoryReject};
use bitcoin_rs_primitives::{Hash256, Txid};

const RUST_PENDING: usize = 10_000;
const WIDEST_GAP: u32 = 4_096;
/// Below it the Rust has bucket 0, and document 02 (L9) no bucket.
const FLOOR: u64 = 1_000;
const ID: usize = 32;
const UNWRITTEN: u8 = 0xaa;

/// A line of output, and whether it says what the Rust did.
pub struct Line {
    pub text: String,
    pub from_rust: bool,
}

fn rust(text: impl ToString) -> Line {
    Line { text: text.to_string(), from_rust: true }
}

fn own(text: impl ToString) -> Line {
    Line { text: text.to_string(), from_rust: false }
}

/// The operation does not fit the memory lent.
pub struct Unfit;

pub struct Run {
    memory: Option<Memory>,
    written: Vec<u8>,
    /// The Rust object whose state is the memory's; none after damage.
    live: Option<FeeEstimator>,
    widest_gap: u32,
}

impl Run {
    pub fn new(any_gap: bool) -> Self {
        let widest_gap = if any_gap { u32::MAX } else { WIDEST_GAP };
        Self { memory: None, written: Vec::new(), live: None, widest_gap }
    }

    /// Runs one operation and answers the line that it prints, if it prints one.
    pub fn step(&mut self, op: Op) -> Result<Option<Line>, Unfit> {
        match (op, &mut self.memory) {
            (Op::Lend { pending, recent, confirmed, resolved }, _) => {
                self.memory = Some(Memory::lent(pending, recent, confirmed, resolved));
                self.live = None;
                Ok(None)
            }
            (Op::Damage(damage), Some(memory)) => {
                self.live = None;
                damaged(memory, damage).ok_or(Unfit).map(|()| None)
            }
            (Op::Call(call), Some(memory)) => {
                let session = Session { memory, live: &mut self.live, widest_gap: self.widest_gap };
                Ok(Some(session.call(call, &mut self.written)))
            }
            (_, None) => Err(Unfit),
        }
    }
}

/// Does the damage; none where it lies outside what is lent.
fn damaged(memory: &mut Memory, damage: Damage) -> Option<()> {
    match damage {
        Damage::Byte { table, at, bytes } => {
            let table = match table {
                Table::Pending => &mut memory.pending,
                Table::Recent => &mut memory.recent,
            };
            table.get_mut(at..at + bytes.len())?.copy_from_slice(&bytes);
        }
        Damage::Count { counts, at, value } => {
            let counts = match counts {
                Counts::Confirmed => &mut memory.confirmed,
                Counts::Resolved => &mut memory.resolved,
            };
            *counts.get_mut(at)? = value;
        }
        Damage::State(state) => memory.state = state,
    }
    Some(())
}

struct Session<'a> {
    memory: &'a mut Memory,
    live: &'a mut Option<FeeEstimator>,
    widest_gap: u32,
}

impl Session<'_> {
    fn call(mut self, call: Call, written: &mut Vec<u8>) -> Line {
        match call {
            Call::Start => self.start(),
            Call::Enter { id, rate, height } => self.enter(txid(&id), rate, height),
            Call::Leave { id } => self.leave(txid(&id)),
            Call::Block { height, ids } => self.block(&ids, height),
            Call::Estimate(target) => self.estimate(target),
            Call::Estimates => self.estimates(),
            Call::Bucket(rate) if rate < FLOOR => own("none"),
            Call::Bucket(rate) => rust(FeeEstimator::new().bucket_of(rate)),
            Call::Write(len) => self.write(len, written),
            Call::Read(bytes) => self.read(&bytes),
            Call::Again => self.read(written),
            Call::Sum => self.sum(),
        }
    }

    /// The estimator for a call that judges `part`, and the part of memory that it holds; none where `part` is damaged.
    fn estimator(&mut self, part: Part) -> Option<(FeeEstimator, Part)> {
        if let Some(live) = self.live.take() {
            return Some((live, Part::Whole));
        }
        let held = [Part::Whole, part].into_iter().find(|&part| self.memory.is_sound(part))?;
        let restored = FeeEstimator::from_history_bytes(&self.memory.file(held)).expect("the Rust reads a file of sound memory");
        Some((restored, held))
    }

    /// Keeps the estimator of a call that changed nothing.
    fn keep(&mut self, estimator: FeeEstimator, held: Part) {
        if held == Part::Whole {
            *self.live = Some(estimator);
        }
    }

    /// Keeps the estimator of a call that was done, and lays its state into the memory.
    fn lay(&mut self, estimator: FeeEstimator, held: Part) {
        self.memory.lay(&estimator.to_history_bytes(), held);
        self.keep(estimator, held);
    }

    fn start(&mut self) -> Line {
        if !self.memory.is_long_enough() {
            return own(1);
        }
        self.lay(FeeEstimator::new(), Part::Whole);
        rust(0)
    }

    fn enter(&mut self, id: Txid, rate: u64, height: u32) -> Line {
        let Some((mut estimator, held)) = self.estimator(Part::Pending) else { return own(1) };
        if rate < FLOOR {
            self.keep(estimator, held);
            return own(16);
        }
        let (known, before) = (estimator.is_pending(&id), estimator.pending_len());
        let capacity = self.memory.pending_capacity();
        if !known && before == capacity && capacity < RUST_PENDING {
            self.keep(estimator, held);
            return own(3);
        }
        estimator.tx_entered(id, rate, height);
        let answer = match (estimator.pending_len() > before, known) {
            (true, _) => 0,
            (false, true) => 2,
            (false, false) => 3,
        };
        self.lay(estimator, held);
        rust(answer)
    }

    fn leave(&mut self, id: Txid) -> Line {
        let Some((mut estimator, held)) = self.estimator(Part::Pending) else { return own(1) };
        let before = estimator.pending_len();
        estimator.tx_left(&id);
        let answer = if estimator.pending_len() < before { 0 } else { 4 };
        self.lay(estimator, held);
        rust(answer)
    }

    fn block(&mut self, ids: &[u8], height: u32) -> Line {
        let Some((mut estimator, held)) = self.estimator(Part::Whole) else { return own(1) };
        let (ids, odd) = ids.as_chunks::<ID>();
        let ids: Vec<Txid> = ids.iter().map(txid).collect();
        let gap = self.memory.state.last.map_or(0, |last| height.saturating_sub(last));
        let refusal = if !odd.is_empty() {
            Some(5)
        } else if gap > self.widest_gap {
            Some(6)
        } else if estimator.held_once_listed(&ids, height) > self.memory.recent_capacity() {
            Some(7)
        } else {
            None
        };
        if let Some(refusal) = refusal {
            self.keep(estimator, held);
            return own(refusal);
        }
        estimator.block_connected(&ids, height);
        self.lay(estimator, held);
        rust(0)
    }

    fn estimate(&mut self, target: u32) -> Line {
        let Some((estimator, held)) = self.estimator(Part::Counts) else { return own(1) };
        let answer = estimator.estimate(target).map_or("none".to_owned(), |rate| format!("rate {}", rate.as_sat_per_kvb()));
        self.keep(estimator, held);
        rust(answer)
    }

    fn estimates(&mut self) -> Line {
        let Some((estimator, held)) = self.estimator(Part::Counts) else { return own(1) };
        let word = |target| estimator.estimate(target).map_or("-".to_owned(), |rate| rate.as_sat_per_kvb().to_string());
        let words: Vec<String> = (1..=25).map(word).collect();
        self.keep(estimator, held);
        rust(words.join(" "))
    }

    fn write(&mut self, len: usize, written: &mut Vec<u8>) -> Line {
        let Some((estimator, held)) = self.estimator(Part::Whole) else { return own(1) };
        let file = estimator.to_history_bytes();
        self.keep(estimator, held);
        if file.len() > len {
            return own(format!("12 {}", file.len()));
        }
        let mut out = vec![UNWRITTEN; len];
        out[..file.len()].copy_from_slice(&file);
        let line = rust(format!("0 {} {}", file.len(), memory::sum(&out)));
        *written = file;
        line
    }

    fn read(&mut self, bytes: &[u8]) -> Line {
        if !self.memory.is_long_enough() {
            return own(1);
        }
        match FeeEstimator::from_history_bytes(bytes) {
            Err(HistoryReject::BadMagic) => rust(8),
            Err(HistoryReject::UnknownVersion(version)) => rust(format!("9 {version}")),
            Err(HistoryReject::Corrupt) => rust(10),
            Ok(_) if !self.memory.has_room(bytes) => own(11),
            Ok(estimator) => {
                self.lay(estimator, Part::Whole);
                rust(0)
            }
        }
    }

    fn sum(&self) -> Line {
        Line { text: self.memory.line(), from_rust: self.live.is_some() }
    }
}

fn txid(bytes: &[u8; ID]) -> Txid {
    Txid(Hash256::from_le_bytes(bytes))
}
