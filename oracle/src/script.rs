//! Lines of a script, as the scripts' page words them. What depends on the memory lent (places) is left to the run.

use crate::memory::State;

/// The longest script that is read.
pub const MOST_BYTES: usize = 2 * 1024 * 1024;
const MOST_IDS: usize = 4_096;
const MOST_WRITTEN: usize = 1_400_000;
const MOST_PENDING_BYTES: usize = 440_100;
const MOST_RECENT_BYTES: usize = 720_100;
const MOST_COUNTS: usize = 3_600;

pub enum Table {
    Pending,
    Recent,
}

pub enum Counts {
    Confirmed,
    Resolved,
}

/// What a caller may do to memory behind the estimator's back.
pub enum Damage {
    Byte { table: Table, at: usize, bytes: Vec<u8> },
    Count { counts: Counts, at: usize, value: f64 },
    State(State),
}

pub enum Op {
    Lend { pending: usize, recent: usize, confirmed: usize, resolved: usize },
    Damage(Damage),
    Call(Call),
}

/// The operations that print a line.
pub enum Call {
    Start,
    Enter { id: [u8; 32], rate: u64, height: u32 },
    Leave { id: [u8; 32] },
    Block { height: u32, ids: Vec<u8> },
    Estimate(u32),
    Estimates,
    Bucket(u64),
    Write(usize),
    Read(Vec<u8>),
    Again,
    Sum,
}

/// The operation on a line, or none where the line does not fit.
pub fn parse(line: &[u8]) -> Option<Op> {
    let words: Vec<&[u8]> = line.split(|&byte| byte == b' ').collect();
    let (&name, rest) = words.split_first()?;
    Some(match (name, rest) {
        (b"lend", &[pending, recent, confirmed, resolved]) => Op::Lend {
            pending: length(pending, MOST_PENDING_BYTES)?,
            recent: length(recent, MOST_RECENT_BYTES)?,
            confirmed: length(confirmed, MOST_COUNTS)?,
            resolved: length(resolved, MOST_COUNTS)?,
        },
        (b"byte", &[name, at, bytes]) => Op::Damage(Damage::Byte { table: table(name)?, at: place(at)?, bytes: hex(bytes)? }),
        (b"count", &[name, at, value]) => Op::Damage(Damage::Count { counts: counts(name)?, at: place(at)?, value: pattern(value)? }),
        (b"state", &[last, pending, recent]) => Op::Damage(Damage::State(State {
            last: if last == b"-" { None } else { Some(narrow(last)?) },
            pending: place(pending)?,
            recent: place(recent)?,
        })),
        _ => Op::Call(call(name, rest)?),
    })
}

fn call(name: &[u8], rest: &[&[u8]]) -> Option<Call> {
    Some(match (name, rest) {
        (b"start", []) => Call::Start,
        (b"enter", &[name, rate, height]) => Call::Enter { id: id(name)?, rate: number(rate)?, height: narrow(height)? },
        (b"leave", &[name]) => Call::Leave { id: id(name)? },
        (b"block", [height, ids @ ..]) if ids.len() <= MOST_IDS => {
            Call::Block { height: narrow(height)?, ids: ids.iter().map(|name| id(name)).collect::<Option<Vec<_>>>()?.concat() }
        }
        (b"blockraw", &[height, ids]) => Call::Block { height: narrow(height)?, ids: hex_or_none(ids)? },
        (b"estimate", &[target]) => Call::Estimate(narrow(target)?),
        (b"estimates", []) => Call::Estimates,
        (b"bucket", &[rate]) => Call::Bucket(number(rate)?),
        (b"write", &[len]) => Call::Write(length(len, MOST_WRITTEN)?),
        (b"read", &[bytes]) => Call::Read(hex_or_none(bytes)?),
        (b"again", []) => Call::Again,
        (b"sum", []) => Call::Sum,
        _ => return None,
    })
}

/// A decimal number of 64 bits; leading zeros are taken.
fn number(word: &[u8]) -> Option<u64> {
    let digits = !word.is_empty() && word.iter().all(u8::is_ascii_digit);
    let digit = |value: u64, byte: &u8| value.checked_mul(10)?.checked_add(u64::from(byte - b'0'));
    if digits { word.iter().try_fold(0, digit) } else { None }
}

/// A decimal number of 32 bits.
fn narrow(word: &[u8]) -> Option<u32> {
    number(word)?.try_into().ok()
}

/// A used number, or a place that the run holds against what is lent.
fn place(word: &[u8]) -> Option<usize> {
    narrow(word)?.try_into().ok()
}

fn length(word: &[u8], most: usize) -> Option<usize> {
    place(word).filter(|&len| len <= most)
}

/// One or more bytes as pairs of lower-case digits.
fn hex(word: &[u8]) -> Option<Vec<u8>> {
    let (pairs, odd) = word.as_chunks::<2>();
    if pairs.is_empty() || !odd.is_empty() {
        return None;
    }
    pairs.iter().map(|&[high, low]| Some(hex_digit(high)? * 16 + hex_digit(low)?)).collect()
}

fn hex_or_none(word: &[u8]) -> Option<Vec<u8>> {
    if word == b"-" { Some(Vec::new()) } else { hex(word) }
}

fn hex_digit(byte: u8) -> Option<u8> {
    match byte {
        b'0'..=b'9' => Some(byte - b'0'),
        b'a'..=b'f' => Some(byte - b'a' + 10),
        _ => None,
    }
}

/// An id of 1 to 32 bytes, zeros added at the right.
fn id(word: &[u8]) -> Option<[u8; 32]> {
    let bytes = hex(word)?;
    let mut id = [0; 32];
    id.get_mut(..bytes.len())?.copy_from_slice(&bytes);
    Some(id)
}

/// A double's pattern, highest digit first, or `nan`.
fn pattern(word: &[u8]) -> Option<f64> {
    if word == b"nan" {
        return Some(f64::NAN);
    }
    Some(f64::from_be_bytes(hex(word)?.try_into().ok()?))
}

fn table(word: &[u8]) -> Option<Table> {
    match word {
        b"pending" => Some(Table::Pending),
        b"confirmed" => Some(Table::Recent),
        _ => None,
    }
}

fn counts(word: &[u8]) -> Option<Counts> {
    match word {
        b"confirmed" => Some(Counts::Confirmed),
        b"resolved" => Some(Counts::Resolved),
        _ => None,
    }
}
