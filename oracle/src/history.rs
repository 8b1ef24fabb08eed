//! The history file cut into its parts and put together again. Its fixed bytes (magic, version, rates) are taken from a file that the Rust wrote.

use crate::subject::FeeEstimator;

pub const TARGETS: usize = 25;
const BUCKETS: usize = 142;
/// The counts of one kind.
pub const COUNTS: usize = BUCKETS * TARGETS;
/// Magic and version stand before the flag of the last height.
const FLAG: usize = 12;
/// Rate, then 25 confirmed and 25 resolved counts.
const ROW: usize = 8 + 2 * TARGETS * 8;

/// The records stand as the file has them, 44 and 36 bytes each.
pub struct History {
    pub last: Option<u32>,
    pub confirmed: Vec<f64>,
    pub resolved: Vec<f64>,
    pub pending: Vec<u8>,
    pub recent: Vec<u8>,
}

/// The parts of a file that the Rust wrote or accepted.
pub fn parts(file: &[u8]) -> History {
    let (flag, mut rest) = (file[FLAG], &file[FLAG + 1..]);
    let last = (flag == 1).then(|| number(take(&mut rest, 4)));
    take(&mut rest, 4);
    let (mut confirmed, mut resolved) = (Vec::with_capacity(COUNTS), Vec::with_capacity(COUNTS));
    for _ in 0..BUCKETS {
        take(&mut rest, 8);
        confirmed.extend(doubles(take(&mut rest, TARGETS * 8)));
        resolved.extend(doubles(take(&mut rest, TARGETS * 8)));
    }
    let pending = records(&mut rest, 44);
    let recent = records(&mut rest, 36);
    History { last, confirmed, resolved, pending, recent }
}

/// The file that holds these parts.
pub fn file(history: &History) -> Vec<u8> {
    let fresh = FeeEstimator::new().to_history_bytes();
    let (count, rows) = fresh[FLAG + 1..].split_at(4);
    let mut file = fresh[..FLAG].to_vec();
    match history.last {
        Some(height) => {
            file.push(1);
            file.extend(height.to_le_bytes());
        }
        None => file.push(0),
    }
    file.extend(count);
    for (bucket, row) in rows.chunks_exact(ROW).take(BUCKETS).enumerate() {
        let places = bucket * TARGETS..(bucket + 1) * TARGETS;
        file.extend(&row[..8]);
        file.extend(history.confirmed[places.clone()].iter().flat_map(|count| count.to_le_bytes()));
        file.extend(history.resolved[places].iter().flat_map(|count| count.to_le_bytes()));
    }
    for (records, size) in [(&history.pending, 44), (&history.recent, 36)] {
        file.extend((u32::try_from(records.len() / size).expect("more records than a file counts")).to_le_bytes());
        file.extend(records);
    }
    file
}

/// A number of four bytes, lowest first.
pub fn number(bytes: &[u8]) -> u32 {
    u32::from_le_bytes(bytes.try_into().expect("a number of four bytes"))
}

fn doubles(bytes: &[u8]) -> impl Iterator<Item = f64> {
    bytes.as_chunks::<8>().0.iter().map(|pattern| f64::from_le_bytes(*pattern))
}

/// A counted list of records.
fn records(rest: &mut &[u8], size: usize) -> Vec<u8> {
    let count = number(take(rest, 4)) as usize;
    take(rest, count * size).to_vec()
}

fn take<'a>(rest: &mut &'a [u8], len: usize) -> &'a [u8] {
    let (head, tail) = rest.split_at(len);
    *rest = tail;
    head
}
