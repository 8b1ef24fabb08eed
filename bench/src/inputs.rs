//! The inputs of the benchmark, the same in each run and for both sides.

pub type Id = [u8; 32];

/// The last height of every history here.
pub const HEIGHT: u32 = 800_000;
pub const BUCKETS: u64 = 142;
const TARGETS: u32 = 25;

/// Numbers that look random (SplitMix64).
pub struct Numbers(u64);

impl Numbers {
    pub const fn new(seed: u64) -> Self {
        Self(seed)
    }

    pub fn next(&mut self) -> u64 {
        self.0 = self.0.wrapping_add(0x9e37_79b9_7f4a_7c15);
        let z = (self.0 ^ (self.0 >> 30)).wrapping_mul(0xbf58_476d_1ce4_e5b9);
        let z = (z ^ (z >> 27)).wrapping_mul(0x94d0_49bb_1331_11eb);
        z ^ (z >> 31)
    }

    pub fn below(&mut self, bound: u64) -> u64 {
        self.next() % bound
    }

    fn below_u32(&mut self, bound: u32) -> u32 {
        u32::try_from(self.below(u64::from(bound))).expect("below a u32")
    }

    pub fn id(&mut self) -> Id {
        let mut id = [0; 32];
        id.chunks_exact_mut(8).for_each(|part| part.copy_from_slice(&self.next().to_le_bytes()));
        id
    }

    /// So many ids, in no order.
    pub fn ids(&mut self, number: usize) -> Vec<Id> {
        (0..number).map(|_| self.id()).collect()
    }

    pub fn shuffle<T>(&mut self, list: &mut [T]) {
        for place in (1..list.len()).rev() {
            let other = usize::try_from(self.below(place as u64 + 1)).expect("within the list");
            list.swap(place, other);
        }
    }
}

/// The ids of a file, and how they stand in it.
#[derive(Clone, Copy, PartialEq)]
pub enum Order {
    /// As both sides write them.
    Rising,
    Reversed,
    Shuffled,
    /// Shuffled, and each id stands twice; what is read last counts.
    Repeats,
    /// Shuffled, and the ids are 0, 1, 2 .. as numbers of 32 bytes, so that they differ in their last bytes alone.
    Counters,
}

impl Order {
    /// So many ids of a file.
    fn ids(self, numbers: &mut Numbers, number: usize) -> Vec<Id> {
        let mut ids = numbers.ids(number);
        ids.sort_unstable();
        let mut others = Numbers::new(3);
        match self {
            Self::Rising => return ids,
            Self::Reversed => {
                ids.reverse();
                return ids;
            }
            Self::Shuffled => {}
            Self::Repeats => (1..number).step_by(2).for_each(|place| ids[place] = ids[place - 1]),
            Self::Counters => (0..).zip(&mut ids).for_each(|(at, id)| *id = counter(at)),
        }
        others.shuffle(&mut ids);
        ids
    }
}

fn counter(at: u32) -> Id {
    let mut id = [0; 32];
    id[28..].copy_from_slice(&at.to_be_bytes());
    id
}

/// A history, and the ids that are pending in it.
pub struct History {
    pub bytes: Vec<u8>,
    pub pending: Vec<Id>,
}

/// A history at HEIGHT of a board whose columns are so many blocks wide, with so many records of each kind. Entries are spread over the last 25 columns, confirmations over
/// the last 25 heights, and resolved-through is what a run would have left. So many of the lowest buckets are in use, and the counts of the others are zero.
pub fn history(width: u32, pending: usize, confirmed: usize, order: Order, in_use: u64) -> History {
    let mut numbers = Numbers::new(1);
    let fresh = original::FeeEstimator::new().to_history_bytes();
    let (magic, rows) = (&fresh[..8], &fresh[13..57_953]);
    let version = if width == 1 { 1u32.to_le_bytes().to_vec() } else { [3u32.to_le_bytes(), width.to_le_bytes()].concat() };
    let mut bytes = [magic, &version, &[1], &HEIGHT.to_le_bytes(), &rows[..4]].concat();
    for (bucket, row) in (0..BUCKETS).zip(rows[4..].chunks_exact(408)) {
        if bucket >= in_use {
            bytes.extend(row);
            continue;
        }
        bytes.extend(&row[..8]);
        let resolved: Vec<f64> = (0..TARGETS).map(|_| numbers.below(1_000_000) as f64 / 4_096.0).collect();
        let confirmed = resolved.iter().map(|count| count * 0.875);
        bytes.extend(confirmed.flat_map(f64::to_le_bytes));
        bytes.extend(resolved.iter().flat_map(|count| count.to_le_bytes()));
    }

    let (pending, confirmed) = (order.ids(&mut numbers, pending), order.ids(&mut numbers, confirmed));
    let count = |list: &[Id]| u32::try_from(list.len()).expect("a count of 32 bits").to_le_bytes();
    bytes.extend(count(&pending));
    for id in &pending {
        let bucket = u32::try_from(numbers.below(in_use)).expect("a bucket");
        let through = numbers.below_u32(TARGETS);
        bytes.extend(id);
        bytes.extend([bucket, HEIGHT - width * through, through].iter().flat_map(|field| field.to_le_bytes()));
    }
    bytes.extend(count(&confirmed));
    for id in &confirmed {
        bytes.extend(id);
        bytes.extend((HEIGHT - numbers.below_u32(TARGETS + 1)).to_le_bytes());
    }
    History { bytes, pending }
}
