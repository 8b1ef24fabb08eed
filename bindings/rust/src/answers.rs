//! What a call takes and answers: ids, rates, and the refusals of documents 01 and 02 by their numbers.

use std::error::Error;
use std::fmt;

/// A transaction's id: 32 bytes, kept as given, ordered as unsigned bytes from the first.
#[derive(Clone, Copy, Debug, Eq, Hash, Ord, PartialEq, PartialOrd)]
#[repr(transparent)]
pub struct Txid(pub [u8; 32]);

impl Txid {
    /// The bytes.
    #[must_use]
    pub const fn as_bytes(&self) -> &[u8; 32] {
        &self.0
    }
}

impl From<[u8; 32]> for Txid {
    fn from(bytes: [u8; 32]) -> Self {
        Self(bytes)
    }
}

/// A fee rate in satoshi per kvB.
#[derive(Clone, Copy, Debug, Eq, Ord, PartialEq, PartialOrd)]
pub struct FeeRate(u64);

impl FeeRate {
    pub(crate) const fn new(sat_per_kvb: u64) -> Self {
        Self(sat_per_kvb)
    }

    /// The number of satoshi.
    #[must_use]
    pub const fn as_sat_per_kvb(self) -> u64 {
        self.0
    }
}

/// Why a history is refused.
#[derive(Clone, Copy, Debug, Eq, PartialEq)]
pub enum HistoryReject {
    /// The first eight bytes are not those of a history.
    BadMagic,
    /// The history is of this version.
    UnknownVersion(u32),
    /// The bytes are no history.
    Corrupt,
}

/// Why a call was refused. A refused call changes nothing.
#[derive(Clone, Copy, Debug, Eq, PartialEq)]
#[non_exhaustive]
pub enum Refusal {
    /// The memory is not an estimator's. No method of an [`Estimator`](crate::Estimator) leads there.
    Damaged,
    /// The rate is below [`FLOOR`](crate::FLOOR).
    BelowFloor,
    /// The id is pending.
    AlreadyPending,
    /// 10,000 transactions are pending.
    PendingFull,
    /// The id is not pending.
    Absent,
    /// The list of ids is not a multiple of 32 bytes. A list of [`Txid`] always is.
    BadList,
    /// The height is more than [`WIDEST_GAP`](crate::WIDEST_GAP) above the last one. Only [`try_block_step`](crate::Estimator::try_block_step) answers it.
    GapTooWide,
    /// The block would leave more than 1,000,000 confirmed records, counted once the skipped heights have let go of the old ones and all of its list is in. A
    /// transaction that is listed twice counts once; one that has such a record already, or is let go of in the skipped heights, needs no further one.
    ConfirmedFull,
    /// The first eight bytes are not those of a history.
    BadMagic,
    /// The history is of this version.
    UnknownVersion(u32),
    /// The bytes are no history.
    Corrupt,
    /// The tables have no room for the history's records. An [`Estimator`](crate::Estimator) makes room for them.
    NoRoom,
    /// The output must have so many bytes.
    ShortOutput(usize),
}

impl Refusal {
    /// The number of the refusal, by documents 01 and 02.
    #[must_use]
    pub const fn number(self) -> u32 {
        match self {
            Self::Damaged => 1,
            Self::BelowFloor => 16,
            Self::AlreadyPending => 2,
            Self::PendingFull => 3,
            Self::Absent => 4,
            Self::BadList => 5,
            Self::GapTooWide => 6,
            Self::ConfirmedFull => 7,
            Self::BadMagic => 8,
            Self::UnknownVersion(_) => 9,
            Self::Corrupt => 10,
            Self::NoRoom => 11,
            Self::ShortOutput(_) => 12,
        }
    }
}

/// The answer of that number, with what it carries, if anything.
pub(crate) fn answered(number: u32, carried: u64) -> Result<(), Refusal> {
    Err(match number {
        0 => return Ok(()),
        1 => Refusal::Damaged,
        2 => Refusal::AlreadyPending,
        3 => Refusal::PendingFull,
        4 => Refusal::Absent,
        5 => Refusal::BadList,
        6 => Refusal::GapTooWide,
        7 => Refusal::ConfirmedFull,
        8 => Refusal::BadMagic,
        9 => Refusal::UnknownVersion(u32::try_from(carried).expect("a version has 32 bits")),
        10 => Refusal::Corrupt,
        11 => Refusal::NoRoom,
        12 => Refusal::ShortOutput(usize::try_from(carried).expect("a length is a usize")),
        16 => Refusal::BelowFloor,
        _ => unreachable!("the library answers 0 to 12, and 16"),
    })
}

impl fmt::Display for Refusal {
    fn fmt(&self, f: &mut fmt::Formatter<'_>) -> fmt::Result {
        match self {
            Self::Damaged => f.write_str("the memory is not an estimator's"),
            Self::BelowFloor => f.write_str("the rate is below the lowest that may enter"),
            Self::AlreadyPending => f.write_str("the transaction is already pending"),
            Self::PendingFull => f.write_str("too many transactions are pending"),
            Self::Absent => f.write_str("the transaction is not pending"),
            Self::BadList => f.write_str("the list of ids is not a multiple of 32 bytes"),
            Self::GapTooWide => f.write_str("the height is too far above the last one"),
            Self::ConfirmedFull => f.write_str("there would be too many confirmed records"),
            Self::BadMagic => f.write_str("the bytes do not begin as a history"),
            Self::UnknownVersion(version) => write!(f, "the history is of version {version}"),
            Self::Corrupt => f.write_str("the bytes are no history"),
            Self::NoRoom => f.write_str("there is no room for the history's records"),
            Self::ShortOutput(needed) => write!(f, "the output must have {needed} bytes"),
        }
    }
}

impl Error for Refusal {}
