//! The original and this crate, given the same calls, are in the same state after each of them: the same estimates and the same history, bit for bit. That is said
//! of entries at or above the floor: one below it is refused here, and the original is not told of it.

use izrughem::{FLOOR, FeeEstimator, HistoryReject, Refusal, Txid, WIDEST_GAP};
use original::Reject;

/// Numbers that look random and are the same in each run (SplitMix64).
struct Numbers(u64);

impl Numbers {
    fn next(&mut self) -> u64 {
        self.0 = self.0.wrapping_add(0x9e37_79b9_7f4a_7c15);
        let z = (self.0 ^ (self.0 >> 30)).wrapping_mul(0xbf58_476d_1ce4_e5b9);
        let z = (z ^ (z >> 27)).wrapping_mul(0x94d0_49bb_1331_11eb);
        z ^ (z >> 31)
    }

    fn below(&mut self, bound: u64) -> u64 {
        self.next() % bound
    }

    fn height(&mut self, low: u32, width: u32) -> u32 {
        low.saturating_add(u32::try_from(self.below(u64::from(width))).expect("below a u32"))
    }
}

/// Both sides.
struct Pair {
    original: original::FeeEstimator,
    here: FeeEstimator,
}

impl Pair {
    fn new() -> Self {
        Self { original: original::FeeEstimator::new(), here: FeeEstimator::new() }
    }

    fn tx_entered(&mut self, id: [u8; 32], rate: u64, height: u32) {
        if rate < FLOOR {
            assert_eq!(self.here.try_tx_entered(Txid(id), rate, height), Err(Refusal::BelowFloor));
            return;
        }
        self.original.tx_entered(original::id(&id), rate, height);
        self.here.tx_entered(Txid(id), rate, height);
    }

    fn tx_left(&mut self, id: [u8; 32]) {
        self.original.tx_left(&original::id(&id));
        self.here.tx_left(&Txid(id));
    }

    fn block_connected(&mut self, ids: &[[u8; 32]], height: u32) {
        self.original.block_connected(&ids.iter().map(original::id).collect::<Vec<_>>(), height);
        self.here.block_connected(&ids.iter().copied().map(Txid).collect::<Vec<_>>(), height);
    }

    fn check(&self) {
        for target in (0..=27).chain([u32::MAX]) {
            let rates = (self.original.estimate(target), self.here.estimate(target));
            let numbers = (rates.0.map(original::FeeRate::as_sat_per_kvb), rates.1.map(izrughem::FeeRate::as_sat_per_kvb));
            assert_eq!(numbers.0, numbers.1, "target {target}");
        }
        let history = self.here.to_history_bytes();
        assert!(self.original.to_history_bytes() == history, "the histories differ");
        assert_eq!(history.len(), self.here.history_len());
    }

    /// Both sides read what they wrote, and go on from there.
    fn restored(self) -> Self {
        let history = self.here.to_history_bytes();
        read(&history).expect("a written history")
    }
}

/// Both sides read the bytes, or refuse them for the same reason.
fn read(history: &[u8]) -> Result<Pair, Reject> {
    let here = FeeEstimator::from_history_bytes(history).map_err(|reject| match reject {
        HistoryReject::BadMagic => (8, None),
        HistoryReject::UnknownVersion(version) => (9, Some(version)),
        HistoryReject::Corrupt => (10, None),
    });
    match (original::read(history), here) {
        (Ok(original), Ok(here)) => {
            let pair = Pair { original, here };
            pair.check();
            Ok(pair)
        }
        (Err(original), Err(here)) => {
            assert_eq!(original, here);
            Err(here)
        }
        (original, here) => panic!("one side refuses: {:?} {:?}", original.err(), here.err()),
    }
}

/// One of a few ids, so that ids come again.
fn id(numbers: &mut Numbers, few: u64) -> [u8; 32] {
    let mut id = [0; 32];
    let number = numbers.below(few);
    id[..8].copy_from_slice(&number.wrapping_mul(0x9e37_79b9_7f4a_7c15).to_le_bytes());
    id[31] = u8::try_from(number % 251).expect("below 251");
    id
}

fn rate(numbers: &mut Numbers) -> u64 {
    match numbers.below(8) {
        0 => numbers.next(),
        1 => numbers.below(1_200),
        2 => 962_000 + numbers.below(2_000),
        _ => 1_000 + numbers.below(60_000),
    }
}

/// Calls of all kinds; heights that rise, stay, fall and leap.
fn run(seed: u64, steps: usize, few: u64) {
    let mut numbers = Numbers(seed);
    let mut pair = Pair::new();
    let mut height = numbers.height(0, 1_000);
    for step in 0..steps {
        match numbers.below(16) {
            0..9 => {
                let entry = match numbers.below(4) {
                    0 => numbers.height(height.saturating_sub(30), 60),
                    _ => height,
                };
                let (id, rate) = (id(&mut numbers, few), rate(&mut numbers));
                pair.tx_entered(id, rate, entry);
            }
            9 => pair.tx_left(id(&mut numbers, few)),
            10 if step % 7 == 0 => pair = pair.restored(),
            _ => {
                height = match numbers.below(12) {
                    0 => height,
                    1 => numbers.height(height.saturating_sub(40), 40),
                    2 => numbers.height(height, 60),
                    _ => height + 1,
                };
                let ids: Vec<_> = (0..numbers.below(12)).map(|_| id(&mut numbers, few)).collect();
                pair.block_connected(&ids, height);
            }
        }
        if step % 5 == 0 {
            pair.check();
        }
    }
    pair.check();
}

#[test]
fn runs_of_all_calls() {
    for seed in 0..60 {
        run(seed, 200, 40);
    }
    for seed in 100..110 {
        run(seed, 1_000, 400);
    }
}

/// What the floor is for: the original counts what enters below it in bucket 0, and two such entries that are not confirmed take the rate from it.
#[test]
fn entries_below_the_floor_weigh_on_the_original_alone() {
    for (low, original) in [(0, Some(1_000)), (1, Some(1_000)), (2, None), (10, None)] {
        let mut pair = Pair::new();
        (1..=20).for_each(|byte| pair.tx_entered([byte; 32], 1_000, 100));
        for byte in 101..=100 + low {
            pair.tx_entered([byte; 32], 500, 100);
            pair.original.tx_entered(original::id(&[byte; 32]), 500, 100);
        }
        pair.block_connected(&[1, 2, 3, 4, 5, 6, 7, 8, 9, 10, 11, 12, 13, 14, 15, 16, 17, 18].map(|byte| [byte; 32]), 101);
        assert_eq!(pair.original.estimate(1).map(original::FeeRate::as_sat_per_kvb), original, "{low}");
        assert_eq!(pair.here.estimate(1).map(izrughem::FeeRate::as_sat_per_kvb), Some(1_000), "{low}");
    }
}

#[test]
fn gaps_of_any_width() {
    for gap in [1, 25, 26, WIDEST_GAP, WIDEST_GAP + 1, 3 * WIDEST_GAP + 5] {
        let mut pair = Pair::new();
        pair.block_connected(&[], 100);
        for byte in 0..20 {
            pair.tx_entered([byte; 32], 5_000, 90 + u32::from(byte));
        }
        pair.block_connected(&[[1; 32], [2; 32]], 101);
        pair.block_connected(&[[3; 32], [1; 32]], 101 + gap);
        pair.check();
    }
    let mut pair = Pair::new();
    pair.tx_entered([1; 32], 5_000, 0);
    pair.block_connected(&[], u32::MAX - 3);
    pair.block_connected(&[[1; 32]], u32::MAX);
    pair.check();
}

#[test]
fn no_more_than_10_000_are_pending() {
    let mut pair = Pair::new();
    let mut numbers = Numbers(7);
    let ids: Vec<_> = (0..10_003).map(|_| id(&mut numbers, u64::MAX)).collect();
    for id in &ids {
        pair.tx_entered(*id, 3_000, 10);
    }
    assert_eq!(pair.here.pending_len(), 10_000);
    pair.check();
    pair.block_connected(&ids[..9_000], 11);
    assert_eq!((pair.here.pending_len(), pair.here.confirmed_len()), (1_000, 9_000));
    pair.check();
    pair.block_connected(&ids, 36);
    pair.check();
    pair.block_connected(&[], 62);
    assert_eq!((pair.here.pending_len(), pair.here.confirmed_len()), (0, 0));
    pair.check();
}

/// A history with that last height and 1,000,000 confirmed records of it.
fn full(height: u32) -> Vec<u8> {
    let mut pair = Pair::new();
    pair.block_connected(&[], height);
    let mut history = pair.here.to_history_bytes();
    history.truncate(history.len() - 4);
    history.extend(1_000_000_u32.to_le_bytes());
    for record in 0..1_000_000_u32 {
        history.extend(record.to_be_bytes());
        history.extend([0; 28]);
        history.extend(height.to_le_bytes());
    }
    history
}

#[test]
fn a_full_table_that_the_skipped_heights_clear() {
    let full = full(100);
    for (entry, height) in [(120, 127), (990, 1_000), (9_990, 10_000)] {
        let mut pair = read(&full).expect("as many records as there may be");
        pair.tx_entered([255; 32], 5_000, entry);
        pair.block_connected(&[[255; 32]], height);
        assert_eq!((pair.here.last_height(), pair.here.pending_len(), pair.here.confirmed_len()), (Some(height), 0, 1));
        pair.check();
        pair.tx_entered([254; 32], 9_000, height);
        pair.block_connected(&[[254; 32], [255; 32]], height + 1);
        pair.check();
    }
}

/// What the library takes since request L5: ids that need no further record, of a table with no place left.
#[test]
fn a_full_table_takes_what_needs_no_further_record() {
    let full = full(100);
    let mut id = [0; 32];
    id[3] = 7;
    for (entry, height) in [(100, 101), (100, 100), (90, 95), (101, 103), (70, 110)] {
        let mut pair = read(&full).expect("as many records as there may be");
        pair.tx_entered(id, 5_000, entry);
        pair.tx_entered([255; 32], 5_000, 70);
        pair.block_connected(&[id, [254; 32], id, id], height);
        assert_eq!(pair.here.confirmed_len(), 1_000_000, "{height}");
        pair.check();
    }
    // What entered at 70 is let go of at 101, so it needs no record at 103.
    let mut pair = read(&full).expect("as many records as there may be");
    pair.tx_entered([255; 32], 5_000, 70);
    pair.block_connected(&[[255; 32]], 103);
    assert_eq!((pair.here.last_height(), pair.here.pending_len(), pair.here.confirmed_len()), (Some(103), 0, 1_000_000));
    pair.check();
}

/// A history with records of both kinds, ids rising.
fn history() -> Vec<u8> {
    let mut pair = Pair::new();
    for byte in 1..=30 {
        pair.tx_entered([byte; 32], 900 + 700 * u64::from(byte), 200);
    }
    pair.block_connected(&[[1; 32], [5; 32], [9; 32], [13; 32]], 201);
    pair.check();
    pair.here.to_history_bytes()
}

#[test]
fn histories_of_any_order_with_repeats() {
    let written = history();
    let (pending, size) = (57_965 - 4, 44);
    let mut numbers = Numbers(11);
    for _ in 0..200 {
        let mut shuffled = written.clone();
        for _ in 0..20 {
            let (one, other) = (numbers.below(26), numbers.below(26));
            let (one, other) = (usize::try_from(one).expect("small"), usize::try_from(other).expect("small"));
            let record = shuffled[pending + one * size..][..size].to_vec();
            if numbers.below(4) == 0 {
                shuffled[pending + other * size..][..32].copy_from_slice(&record[..32]);
            } else {
                shuffled.copy_within(pending + other * size..pending + (other + 1) * size, pending + one * size);
                shuffled[pending + other * size..][..size].copy_from_slice(&record);
            }
        }
        let mut pair = read(&shuffled).expect("records in any order");
        pair.block_connected(&[[2; 32], [3; 32]], 203);
        pair.check();
    }
}

#[test]
fn damaged_histories() {
    let written = history();
    let mut numbers = Numbers(13);
    for len in (0..64).chain(57_900..written.len()) {
        assert!(read(&written[..len]).is_err());
    }
    for _ in 0..2_000 {
        let mut damaged = written.clone();
        for _ in 0..=numbers.below(2) {
            let end = if numbers.below(2) == 0 { 40 } else { damaged.len() as u64 };
            let at = usize::try_from(numbers.below(end)).expect("within the file");
            damaged[at] = numbers.next().to_le_bytes()[0];
        }
        if numbers.below(8) == 0 {
            damaged.push(0);
        }
        if let Ok(mut pair) = read(&damaged) {
            pair.block_connected(&[[2; 32]], 204);
            pair.check();
        }
    }
}
