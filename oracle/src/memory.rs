//! The memory lent to the estimator: its judgement by document 01, and the way between it and a history file.

use crate::history::{self, COUNTS, History, TARGETS};

const MOST_PENDING: usize = 10_000;
const MOST_RECENT: usize = 1_000_000;
const PENDING_SIZE: usize = 44;
const RECENT_SIZE: usize = 36;
const HIGHEST_BUCKET: u32 = 141;

#[derive(Clone, Copy, Default)]
pub struct State {
    pub last: Option<u32>,
    pub pending: usize,
    pub recent: usize,
}

/// What a call judges: all memory, the pending table alone, or the counts alone.
#[derive(Clone, Copy, PartialEq)]
pub enum Part {
    Whole,
    Pending,
    Counts,
}

pub struct Memory {
    pub state: State,
    pub pending: Vec<u8>,
    pub recent: Vec<u8>,
    pub confirmed: Vec<f64>,
    pub resolved: Vec<f64>,
}

impl Memory {
    pub fn lent(pending: usize, recent: usize, confirmed: usize, resolved: usize) -> Self {
        Self {
            state: State::default(),
            pending: vec![0; pending],
            recent: vec![0; recent],
            confirmed: vec![0.0; confirmed],
            resolved: vec![0.0; resolved],
        }
    }

    pub fn pending_capacity(&self) -> usize {
        (self.pending.len() / PENDING_SIZE).min(MOST_PENDING)
    }

    pub fn recent_capacity(&self) -> usize {
        (self.recent.len() / RECENT_SIZE).min(MOST_RECENT)
    }

    /// Whether both count slices are long enough: all that a fresh start and a reading judge.
    pub fn is_long_enough(&self) -> bool {
        self.confirmed.len() >= COUNTS && self.resolved.len() >= COUNTS
    }

    /// Whether that part gets by without the answer Damaged.
    pub fn is_sound(&self, part: Part) -> bool {
        match part {
            Part::Whole => self.counts_sound() && self.pending_sound() && self.recent_sound(),
            Part::Pending => self.pending_sound(),
            Part::Counts => self.counts_sound(),
        }
    }

    fn counts_sound(&self) -> bool {
        let sound = |counts: &[f64]| counts[..COUNTS].iter().all(|&count| count.is_finite() && count >= 0.0);
        self.is_long_enough() && sound(&self.confirmed) && sound(&self.resolved)
    }

    fn pending_sound(&self) -> bool {
        let fields = |record: &[u8; PENDING_SIZE]| {
            let bucket = history::number(&record[32..36]);
            let resolved_through = history::number(&record[40..44]);
            bucket <= HIGHEST_BUCKET && resolved_through as usize <= TARGETS
        };
        table_sound(&self.pending, self.state.pending, self.pending_capacity(), fields)
    }

    fn recent_sound(&self) -> bool {
        table_sound(&self.recent, self.state.recent, self.recent_capacity(), |_: &[u8; RECENT_SIZE]| true)
    }

    /// The history file that holds this part of sound memory, and nothing else.
    pub fn file(&self, part: Part) -> Vec<u8> {
        let zeros = [0.0; COUNTS];
        let counts = part != Part::Pending;
        let used = |table: &[u8], size, records| table[..size * records].to_vec();
        history::file(&History {
            last: if part == Part::Whole { self.state.last } else { None },
            confirmed: if counts { &self.confirmed[..COUNTS] } else { &zeros }.to_vec(),
            resolved: if counts { &self.resolved[..COUNTS] } else { &zeros }.to_vec(),
            pending: used(&self.pending, PENDING_SIZE, if part == Part::Counts { 0 } else { self.state.pending }),
            recent: used(&self.recent, RECENT_SIZE, if part == Part::Whole { self.state.recent } else { 0 }),
        })
    }

    /// Puts what the file holds into that part of the memory, unused places within the capacities becoming zero.
    pub fn lay(&mut self, file: &[u8], part: Part) {
        let history = history::parts(file);
        let (pending_bytes, recent_bytes) = (self.pending_capacity() * PENDING_SIZE, self.recent_capacity() * RECENT_SIZE);
        if part == Part::Whole {
            self.state.last = history.last;
            self.confirmed[..COUNTS].copy_from_slice(&history.confirmed);
            self.resolved[..COUNTS].copy_from_slice(&history.resolved);
            self.state.recent = history.recent.len() / RECENT_SIZE;
            fill(&mut self.recent[..recent_bytes], &history.recent);
        }
        if part != Part::Counts {
            self.state.pending = history.pending.len() / PENDING_SIZE;
            fill(&mut self.pending[..pending_bytes], &history.pending);
        }
    }

    /// Whether both tables have a place for each record of the file, repeats counted.
    pub fn has_room(&self, file: &[u8]) -> bool {
        let history = history::parts(file);
        let pending = history.pending.len() / PENDING_SIZE;
        let recent = history.recent.len() / RECENT_SIZE;
        pending <= self.pending_capacity() && recent <= self.recent_capacity()
    }

    /// The line of a `sum`.
    pub fn line(&self) -> String {
        let last = self.state.last.map_or("-".to_owned(), |height| height.to_string());
        format!(
            "{last} {} {} {} {} {} {}",
            self.state.pending,
            self.state.recent,
            sum(&self.pending),
            sum(&self.recent),
            sum(&bytes_of(&self.confirmed)),
            sum(&bytes_of(&self.resolved)),
        )
    }
}

/// Adler-32 in hexadecimal digits.
pub fn sum(bytes: &[u8]) -> String {
    const MODULUS: u32 = 65_521;
    /// As many bytes as can be added before 32 bits overflow.
    const RUN: usize = 5_552;
    let (mut a, mut b) = (1_u32, 0_u32);
    for run in bytes.chunks(RUN) {
        for &byte in run {
            a += u32::from(byte);
            b += a;
        }
        (a, b) = (a % MODULUS, b % MODULUS);
    }
    format!("{:08x}", b * 65_536 + a)
}

/// Doubles as bytes, lowest first, every NaN alike.
fn bytes_of(counts: &[f64]) -> Vec<u8> {
    const NAN: u64 = 0x7ff8_0000_0000_0000;
    let pattern = |count: &f64| if count.is_nan() { NAN } else { count.to_bits() };
    counts.iter().flat_map(|count| pattern(count).to_le_bytes()).collect()
}

/// Whether used records stand first with rising ids and good fields, and unused places within the capacity are zero.
fn table_sound<const SIZE: usize>(bytes: &[u8], used: usize, capacity: usize, fields: impl Fn(&[u8; SIZE]) -> bool) -> bool {
    let records = &bytes.as_chunks::<SIZE>().0[..capacity];
    used <= capacity && {
        let (used, unused) = records.split_at(used);
        let rising = used.is_sorted_by(|one, next| one[..32] < next[..32]);
        rising && used.iter().all(fields) && unused.iter().all(|record| *record == [0; SIZE])
    }
}

/// Puts the bytes first and zeros behind them.
fn fill(places: &mut [u8], bytes: &[u8]) {
    let (used, unused) = places.split_at_mut(bytes.len());
    used.copy_from_slice(bytes);
    unused.fill(0);
}
