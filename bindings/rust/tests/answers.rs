//! Each refusal that a method can answer, and that it changes nothing, on each board; and what the boards differ in.

#[macro_use]
#[path = "../src/each_board.rs"]
mod each_board;

use izrughem::{
    Base, Board, Estimator, FLOOR, FeeEstimator, HistoryReject, Refusal, Txid, WIDEST_GAP, Wide, WideFeeEstimator, bucket_index_for_rate,
};

on_each_board! {
    refused_calls_change_nothing,
    an_entry_below_the_floor_is_refused_before_all_else_is_looked_at,
    a_longer_output_is_written_at_its_start,
    a_written_history_is_read,
    a_gap_of_any_width_is_taken,
    confirmed_records_are_kept_for_25_blocks,
    a_full_table_of_confirmed_records_refuses_a_block_as_a_whole,
    a_full_table_takes_what_needs_no_further_record,
    the_last_place_is_enough_for_a_transaction_listed_twice,
    an_estimator_can_be_shared_between_threads,
    histories_are_refused_by_their_bytes,
}

const fn id(byte: u8) -> Txid {
    Txid([byte; 32])
}

/// Document 01's "Quad".
fn quad<B: Board>() -> Estimator<B> {
    let mut quad = Estimator::new();
    for (byte, rate) in [(1, 5_000), (2, 5_000), (3, 1_000), (4, 1_000)] {
        assert_eq!(quad.try_tx_entered(id(byte), rate, 100), Ok(()));
    }
    assert_eq!(quad.try_block_connected(&[id(1), id(2)], 101), Ok(()));
    quad
}

fn rate<B: Board>(estimator: &Estimator<B>, target: u32) -> Option<u64> {
    estimator.estimate(target).map(izrughem::FeeRate::as_sat_per_kvb)
}

#[test]
fn quads_numbers() {
    let quad = quad::<Base>();
    assert_eq!((quad.last_height(), quad.pending_len(), quad.confirmed_len()), (Some(101), 2, 2));
    assert_eq!(
        (rate(&quad, 0), rate(&quad, 1), rate(&quad, 2), rate(&quad, 25), rate(&quad, 26)),
        (None, Some(1_050), Some(1_000), Some(1_000), Some(1_000))
    );
    assert_eq!(quad.try_estimate(0), Ok(None));
}

fn refused_calls_change_nothing<B: Board>() {
    let mut quad = quad::<B>();
    let before = quad.to_history_bytes();
    assert_eq!(quad.try_tx_entered(id(3), 9_000, 50), Err(Refusal::AlreadyPending));
    assert_eq!(quad.try_tx_left(&id(1)), Err(Refusal::Absent));
    assert_eq!(quad.try_block_step(&[id(3)], 101 + WIDEST_GAP + 1), Err(Refusal::GapTooWide));
    let mut short = vec![7; before.len() - 1];
    assert_eq!(quad.try_to_history_bytes(&mut short), Err(Refusal::ShortOutput(before.len())));
    assert!(short.iter().all(|byte| *byte == 7));
    assert_eq!(quad.to_history_bytes(), before);
}

fn an_entry_below_the_floor_is_refused_before_all_else_is_looked_at<B: Board>() {
    let mut estimator = Estimator::<B>::new();
    assert_eq!(estimator.try_tx_entered(id(1), FLOOR - 1, 100), Err(Refusal::BelowFloor));
    assert_eq!(estimator.try_tx_entered(id(1), 0, 100), Err(Refusal::BelowFloor));
    assert_eq!(estimator.pending_len(), 0);
    assert_eq!(estimator.try_tx_entered(id(1), FLOOR, 100), Ok(()));
    let before = estimator.to_history_bytes();
    // An id that is pending gets the same answer, and so does a table that is full.
    assert_eq!(estimator.try_tx_entered(id(1), FLOOR - 1, 100), Err(Refusal::BelowFloor));
    assert_eq!(estimator.try_tx_entered(id(1), FLOOR, 100), Err(Refusal::AlreadyPending));
    assert_eq!(estimator.to_history_bytes(), before);
    for number in 1..10_000_u32 {
        let mut other = [2; 32];
        other[..4].copy_from_slice(&number.to_be_bytes());
        assert_eq!(estimator.try_tx_entered(Txid(other), FLOOR, 100), Ok(()));
    }
    assert_eq!(estimator.try_tx_entered(id(3), FLOOR, 100), Err(Refusal::PendingFull));
    assert_eq!(estimator.try_tx_entered(id(3), FLOOR - 1, 100), Err(Refusal::BelowFloor));
    // What is ignored is counted nowhere: bucket 0 has those at 1,000 alone.
    assert_eq!(estimator.pending_len(), 10_000);
}

fn a_longer_output_is_written_at_its_start<B: Board>() {
    let quad = quad::<B>();
    let mut out = vec![7; quad.history_len() + 3];
    assert_eq!(quad.try_to_history_bytes(&mut out), Ok(quad.history_len()));
    assert_eq!(out[quad.history_len()..], [7; 3]);
    assert_eq!(out[..quad.history_len()], quad.to_history_bytes());
}

fn a_written_history_is_read<B: Board>() {
    let quad = quad::<B>();
    let read = Estimator::<B>::from_history_bytes(&quad.to_history_bytes()).expect("a written history");
    assert_eq!((read.last_height(), read.pending_len(), read.confirmed_len()), (Some(101), 2, 2));
    assert!(read.to_history_bytes() == quad.to_history_bytes());
}

fn a_gap_of_any_width_is_taken<B: Board>() {
    for gap in [WIDEST_GAP, WIDEST_GAP + 1, 3 * WIDEST_GAP + 5] {
        let mut quad = quad::<B>();
        assert_eq!(quad.try_block_connected(&[id(3)], 101 + gap), Ok(()));
        assert_eq!((quad.last_height(), quad.pending_len(), quad.confirmed_len()), (Some(101 + gap), 0, 0));
    }
}

fn confirmed_records_are_kept_for_25_blocks<B: Board>() {
    let mut quad = quad::<B>();
    for (height, kept) in [(126, 2), (127, 0)] {
        assert_eq!(quad.try_block_connected(&[], height), Ok(()));
        assert_eq!(quad.confirmed_len(), kept, "{height}");
    }
}

/// The id of a confirmed record of [`holding`].
fn recorded(record: u32) -> Txid {
    let mut id = [0; 32];
    id[..4].copy_from_slice(&record.to_be_bytes());
    Txid(id)
}

/// An estimator with last height 1,000, so many confirmed records of one height, and a transaction, 255, that is pending since another.
fn holding<B: Board>(records: u32, height: u32, entry: u32) -> Estimator<B> {
    let mut seen = Estimator::<B>::new();
    seen.block_connected(&[], 1_000);
    let mut history = seen.to_history_bytes();
    history.truncate(history.len() - 4);
    history.extend(records.to_le_bytes());
    for record in 0..records {
        history.extend(recorded(record).as_bytes());
        history.extend(height.to_le_bytes());
    }
    let mut holding = Estimator::from_history_bytes(&history).expect("no more records than there may be");
    assert_eq!(holding.try_tx_entered(id(255), 5_000, entry), Ok(()));
    holding
}

fn a_full_table_of_confirmed_records_refuses_a_block_as_a_whole<B: Board>() {
    let mut full = holding::<B>(1_000_000, 1_000, 1_020);
    let before = full.to_history_bytes();
    // Height 1,026 lets go of the records, and a block's own height comes after its list: so a block has no place up to there.
    for height in [999, 1_000, 1_001, 1_026] {
        assert_eq!(full.try_block_connected(&[id(255)], height), Err(Refusal::ConfirmedFull), "{height}");
        assert_eq!((full.last_height(), full.pending_len(), full.confirmed_len()), (Some(1_000), 1, 1_000_000));
    }
    full.block_connected(&[id(255)], 1_001);
    assert!(full.to_history_bytes() == before, "a refused block changes nothing");
    assert_eq!(full.try_block_connected(&[id(254)], 1_001), Ok(()), "what is not pending needs no place");
    assert_eq!(full.try_block_step(&[id(255)], 1_027), Ok(()), "the skipped heights let go of the records, in the same call");
    assert_eq!((full.last_height(), full.pending_len(), full.confirmed_len()), (Some(1_027), 0, 1));
}

fn a_full_table_takes_what_needs_no_further_record<B: Board>() {
    let mut full = holding::<B>(1_000_000, 1_000, 1_000);
    for (height, record) in [(1_001, 7), (1_001, 7), (1_003, 7), (990, 999_999)] {
        assert_eq!(full.try_tx_entered(recorded(record), 5_000, 1_000), Ok(()));
        assert_eq!(full.try_block_connected(&[recorded(record), id(255)], height), Err(Refusal::ConfirmedFull), "{height}");
        assert_eq!(full.try_block_connected(&[recorded(record), id(254), recorded(record)], height), Ok(()), "{height}");
        assert_eq!((full.pending_len(), full.confirmed_len()), (1, 1_000_000), "{height}");
    }
    assert_eq!(full.last_height(), Some(1_003));
}

fn the_last_place_is_enough_for_a_transaction_listed_twice<B: Board>() {
    let mut nearly = holding::<B>(999_999, 1_000, 1_000);
    assert_eq!(nearly.try_tx_entered(id(254), 5_000, 1_000), Ok(()));
    assert_eq!(nearly.try_block_connected(&[id(254), id(255)], 1_001), Err(Refusal::ConfirmedFull));
    assert_eq!(nearly.try_block_connected(&[id(255); 5], 1_001), Ok(()));
    assert_eq!((nearly.pending_len(), nearly.confirmed_len()), (1, 1_000_000));
    assert_eq!(nearly.try_block_connected(&[id(254)], 1_002), Err(Refusal::ConfirmedFull));
}

/// A transaction that is let go of at 1,002, so many blocks after its entry, beside a full table of records that stay.
fn let_go_of_at_1002<B: Board>(after: u32) -> Estimator<B> {
    holding(1_000_000, 1_002, 1_002 - after)
}

#[test]
fn what_is_let_go_of_in_the_skipped_heights_needs_no_record() {
    fn check<B: Board>(mut full: Estimator<B>) {
        assert_eq!(full.try_block_connected(&[id(255)], 1_002), Err(Refusal::ConfirmedFull));
        assert_eq!(full.try_block_connected(&[id(255)], 1_003), Ok(()));
        assert_eq!((full.last_height(), full.pending_len(), full.confirmed_len()), (Some(1_003), 0, 1_000_000));
    }
    check(let_go_of_at_1002::<Base>(25));
    check(let_go_of_at_1002::<Wide>(150));
    // After 25 blocks the wide board has not let go of it.
    assert_eq!(let_go_of_at_1002::<Wide>(25).try_block_connected(&[id(255)], 1_003), Err(Refusal::ConfirmedFull));
}

#[test]
fn a_list_of_thousands_asks_for_no_more_records_than_are_pending() {
    let mut quad = quad::<Base>();
    assert_eq!(quad.try_block_connected(&vec![id(3); 20_000], 102), Ok(()));
    assert_eq!((quad.pending_len(), quad.confirmed_len()), (1, 3));
}

fn an_estimator_can_be_shared_between_threads<B: Board>() {
    fn shared<T: Send + Sync>(_: &T) {}
    let quad = quad::<B>();
    shared(&quad);
    let answers = || (rate(&quad, 1), quad.to_history_bytes());
    std::thread::scope(|scope| {
        for thread in [(); 4].map(|()| scope.spawn(answers)) {
            assert!(thread.join().expect("a thread that ends") == answers());
        }
    });
}

fn histories_are_refused_by_their_bytes<B: Board>() {
    let mut history = quad::<B>().to_history_bytes();
    let refused = |bytes: &[u8]| Estimator::<B>::try_from_history_bytes(bytes).map(|_| ()).unwrap_err();
    assert_eq!(refused(&history[..7]), Refusal::Corrupt);
    assert_eq!(refused(&[0; 8]), Refusal::BadMagic);
    assert_eq!(refused(&history[..11]), Refusal::Corrupt);
    history.push(0);
    assert_eq!(refused(&history), Refusal::Corrupt);
    history[8] = 2;
    assert_eq!(refused(&history[..12]), Refusal::UnknownVersion(2));
    assert_eq!(Estimator::<B>::from_history_bytes(&history).unwrap_err(), HistoryReject::UnknownVersion(2));
    assert_eq!(Estimator::<B>::from_history_bytes(b"BRSEFEE").unwrap_err(), HistoryReject::Corrupt);
    assert_eq!(Estimator::<B>::from_history_bytes(b"brsefees").unwrap_err(), HistoryReject::BadMagic);
}

#[test]
fn buckets_of_rates() {
    for rate in [0, 1, 999] {
        assert_eq!(bucket_index_for_rate(rate), None, "{rate}");
    }
    let edges = [(1_000, 0), (1_049, 0), (1_050, 1), (1_101, 1), (1_102, 2), (962_804, 140), (962_805, 141), (u64::MAX, 141)];
    for (rate, bucket) in edges {
        assert_eq!(bucket_index_for_rate(rate), Some(bucket), "{rate}");
    }
}

#[test]
fn refusals_have_their_numbers() {
    assert_eq!(Refusal::GapTooWide.number(), 6);
    assert_eq!(Refusal::BelowFloor.number(), 16);
    assert_eq!(Refusal::ShortOutput(3).to_string(), "the output must have 3 bytes");
}

#[test]
fn estimators_are_printed_by_their_names() {
    assert_eq!(format!("{:?}", quad::<Base>()), "FeeEstimator { last_height: Some(101), pending: 2, confirmed: 2, .. }");
    assert_eq!(format!("{:?}", WideFeeEstimator::new()), "WideFeeEstimator { last_height: None, pending: 0, confirmed: 0, .. }");
}

/// Two transactions on the wide board, confirmed by the first block, after so many blocks.
fn waited(blocks: u32) -> WideFeeEstimator {
    let mut estimator = WideFeeEstimator::new();
    for byte in [1, 2] {
        assert_eq!(estimator.try_tx_entered(id(byte), 5_000, 100), Ok(()));
    }
    assert_eq!(estimator.try_block_connected(&[id(1), id(2)], 100 + blocks), Ok(()));
    estimator
}

#[test]
fn a_wait_is_counted_from_the_column_that_covers_it() {
    for (blocks, first_target) in [(0, 1), (1, 1), (6, 1), (7, 7), (12, 7), (13, 13), (144, 139), (145, 145), (150, 145)] {
        let waited = waited(blocks);
        assert_eq!((rate(&waited, first_target - 1), rate(&waited, first_target)), (None, Some(1_000)), "{blocks}");
    }
    assert_eq!(rate(&waited(151), 150), None);
}

#[test]
fn a_target_has_the_column_that_covers_it() {
    let mut estimator = WideFeeEstimator::new();
    for (byte, rate) in [(1, 5_000), (2, 5_000), (3, 1_050), (4, 1_050), (5, 1_000), (6, 1_000)] {
        assert_eq!(estimator.try_tx_entered(id(byte), rate, 100), Ok(()));
    }
    for (bytes, height) in [([1, 2], 106), ([3, 4], 107), ([5, 6], 249)] {
        assert_eq!(estimator.try_block_connected(&bytes.map(id), height), Ok(()));
    }
    let (none, first, second, last) = (None, Some(1_102), Some(1_050), Some(1_000));
    for (target, lowest) in
        [(0, none), (1, first), (6, first), (7, second), (144, second), (145, last), (149, last), (150, last), (151, last)]
    {
        assert_eq!(rate(&estimator, target), lowest, "{target}");
    }
    assert_eq!(rate(&estimator, u32::MAX), last);
}

#[test]
fn a_transaction_waits_150_blocks_on_the_wide_board() {
    let mut quad = quad::<Wide>();
    for (height, pending, within_6, within_7) in [
        (105, 2, 1_000, 1_000),
        (106, 2, 1_050, 1_000),
        (111, 2, 1_050, 1_000),
        (112, 2, 1_050, 1_050),
        (249, 2, 1_050, 1_050),
        (250, 0, 1_050, 1_050),
    ] {
        assert_eq!(quad.try_block_connected(&[], height), Ok(()));
        assert_eq!((quad.pending_len(), rate(&quad, 6), rate(&quad, 7)), (pending, Some(within_6), Some(within_7)), "{height}");
    }
}

#[test]
fn a_history_of_the_wide_board_has_its_width_after_the_version() {
    let fresh = WideFeeEstimator::new().to_history_bytes();
    assert_eq!(fresh[..23], *b"BRSEFEES\x03\0\0\0\x06\0\0\0\0\x8e\0\0\0\xe8\x03");
    assert_eq!(fresh.len(), 57_965);
    let history = quad::<Wide>().to_history_bytes();
    assert_eq!(history[8..21], *b"\x03\0\0\0\x06\0\0\0\x01\x65\0\0\0");
    assert_eq!(history.len(), 57_965 + 4 + 2 * 44 + 2 * 36);
}

#[test]
fn counts_of_the_wide_board_fade_more_slowly() {
    let (base, wide) = (quad::<Base>().to_history_bytes(), quad::<Wide>().to_history_bytes());
    // Bucket 33 has the two transactions that block 101 confirmed; a bucket takes 408 bytes, of which the rate takes the first 8.
    let first_count = 33 * 408 + 8;
    assert_eq!(base[21 + first_count..][..8], (2.0 * 0.998_f64).to_le_bytes());
    assert_eq!(wide[25 + first_count..][..8], (2.0 * 0.9995_f64).to_le_bytes());
}

#[test]
fn another_width_is_refused() {
    let history = quad::<Wide>().to_history_bytes();
    for (at, byte) in [(12, 0), (12, 1), (12, 5), (12, 7), (13, 1), (15, 1)] {
        let mut other = history.clone();
        other[at] = byte;
        assert_eq!(WideFeeEstimator::from_history_bytes(&other).unwrap_err(), HistoryReject::Corrupt, "{byte} at {at}");
    }
    for len in 12..17 {
        assert_eq!(WideFeeEstimator::from_history_bytes(&history[..len]).unwrap_err(), HistoryReject::Corrupt, "{len}");
    }
}

#[test]
fn neither_board_reads_the_others_history() {
    let (base, wide) = (quad::<Base>().to_history_bytes(), quad::<Wide>().to_history_bytes());
    assert_eq!(FeeEstimator::from_history_bytes(&wide).unwrap_err(), HistoryReject::UnknownVersion(3));
    assert_eq!(WideFeeEstimator::from_history_bytes(&base).unwrap_err(), HistoryReject::UnknownVersion(1));
    assert_eq!(FeeEstimator::try_from_history_bytes(&wide[..12]).unwrap_err(), Refusal::UnknownVersion(3));
    assert_eq!(WideFeeEstimator::try_from_history_bytes(&base[..12]).unwrap_err(), Refusal::UnknownVersion(1));
}

/// A height of a feed: a transaction at 5,000 and one at 1,000 enter, and the block confirms those that have waited 3 blocks and 30.
fn feed<B: Board>(estimator: &mut Estimator<B>, height: u32) {
    let id = |byte: u8, entry: u32| {
        let mut id = [byte; 32];
        id[..4].copy_from_slice(&entry.to_be_bytes());
        Txid(id)
    };
    for (byte, rate) in [(1, 5_000), (2, 1_000)] {
        assert_eq!(estimator.try_tx_entered(id(byte, height), rate, height), Ok(()));
    }
    assert_eq!(estimator.try_block_connected(&[id(1, height - 3), id(2, height - 30)], height), Ok(()));
}

#[test]
fn both_estimators_over_one_feed() {
    let (mut base, mut wide) = (FeeEstimator::new(), WideFeeEstimator::new());
    for height in 100..400 {
        feed(&mut base, height);
        feed(&mut wide, height);
    }
    // A wait of 30 blocks is beyond the base board: it lets go of such transactions after 25.
    assert_eq!((base.last_height(), base.pending_len(), base.confirmed_len()), (Some(399), 3 + 25, 26));
    assert_eq!((wide.last_height(), wide.pending_len(), wide.confirmed_len()), (Some(399), 3 + 30, 2 * 26));
    assert_eq!([2, 3, 24, 25, 150].map(|target| rate(&base, target)), [None, Some(1_050), Some(1_050), Some(1_050), Some(1_050)]);
    assert_eq!([2, 3, 24, 25, 150].map(|target| rate(&wide, target)), [Some(1_050), Some(1_050), Some(1_050), Some(1_000), Some(1_000)]);

    let (mut base_alone, mut wide_alone) = (FeeEstimator::new(), WideFeeEstimator::new());
    (100..400).for_each(|height| feed(&mut base_alone, height));
    (100..400).for_each(|height| feed(&mut wide_alone, height));
    assert!(base.to_history_bytes() == base_alone.to_history_bytes() && wide.to_history_bytes() == wide_alone.to_history_bytes());
}
