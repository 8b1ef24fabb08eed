//! The rows of the benchmark: a call, and the state that it is made in.

use crate::inputs::{BUCKETS, HEIGHT, History, Id, Numbers, Order, history};
use crate::sides::Estimator;
use std::hint::black_box;

/// How often a call is made where one makes no great difference to the next.
const OFTEN: u32 = 100;
/// How many of the 142 buckets are in use on a sparse board.
const SPARSE: u64 = 21;

/// A call, by its name in the table.
#[derive(Clone, Copy)]
pub enum Call {
    Enter,
    Leave,
    Block(usize),
    Gap(u32),
    Estimate(u32),
    Write,
    Read(Order),
}

/// A call in a state with so many records, or, for the library alone, what the call spends on judging the memory it is lent.
pub struct Row {
    call: Call,
    pending: usize,
    confirmed: usize,
    /// How many of the lowest buckets hold something.
    in_use: u64,
    /// The listings of a block are drawn from so many pending ids.
    drawn_from: Option<usize>,
    /// The table that the call is about is lent by hand, with so many places.
    places: Option<usize>,
    judging: bool,
}

/// The calls of a row, ready to be made, and how many they are.
pub struct Work {
    pub calls: Box<dyn FnMut()>,
    pub number: u32,
}

impl Row {
    /// The row of a name as `block-300-1000-7500`: the call, its number if it has one, pending and confirmed records. Behind it `-sparse`, on a sparse board; `-of-N`, a block whose
    /// every listing is one of N pending ids; `-lent-N`, the pending table (for a block the confirmed one) has N places. Before it `judging-`, for the judging alone.
    pub fn named(name: &str) -> Option<Self> {
        let (judging, name) = name.strip_prefix("judging-").map_or((false, name), |call| (true, call));
        let words: Vec<&str> = name.split('-').collect();
        let (call, rest) = match words.as_slice() {
            ["enter", rest @ ..] => (Call::Enter, rest),
            ["leave", rest @ ..] => (Call::Leave, rest),
            ["block", listed, rest @ ..] => (Call::Block(listed.parse().ok()?), rest),
            ["gap", heights, rest @ ..] => (Call::Gap(heights.parse().ok()?), rest),
            ["estimate", targets, rest @ ..] => (Call::Estimate(targets.parse().ok()?), rest),
            ["write", rest @ ..] => (Call::Write, rest),
            ["read", order, rest @ ..] => (Call::Read(order_named(order)?), rest),
            _ => return None,
        };
        let (pending, confirmed, kind) = match rest {
            [pending, confirmed, kind @ ..] => (pending.parse().ok()?, confirmed.parse().ok()?, kind),
            _ => return None,
        };
        let row = Self { call, pending, confirmed, in_use: BUCKETS, drawn_from: None, places: None, judging };
        match (call, kind) {
            (_, []) => Some(row),
            (_, ["sparse"]) => Some(Self { in_use: SPARSE, ..row }),
            (Call::Block(_), ["of", ids]) => Some(Self { drawn_from: Some(ids.parse().ok()?), ..row }),
            (Call::Enter | Call::Leave | Call::Block(_), ["lent", places]) => Some(Self { places: Some(places.parse().ok()?), ..row }),
            _ => None,
        }
    }

    pub const fn lent_by_hand(&self) -> bool {
        self.places.is_some()
    }

    /// The history of the state, on a board of that width.
    pub fn history(&self, width: u32) -> History {
        let order = if let Call::Read(order) = self.call { order } else { Order::Rising };
        history(width, self.pending, self.confirmed, order, self.in_use)
    }

    /// The calls in that state.
    pub fn work<E: Estimator>(&self, history: &History) -> Work {
        if let Call::Read(_) = self.call {
            let bytes = history.bytes.clone();
            let mut read = Vec::with_capacity(1);
            return Work { calls: Box::new(move || read.push(E::from_history_bytes(black_box(&bytes)))), number: 1 };
        }
        let mut estimator = E::from_history_bytes(&history.bytes);
        if let Some(places) = self.places {
            estimator.lend(self.call, places);
        }
        if self.judging {
            let call = self.call;
            return Work { calls: Box::new(move || assert!(estimator.judge(call))), number: 1 };
        }
        self.calls_of(estimator, history.pending.clone())
    }

    fn calls_of<E: Estimator>(&self, mut estimator: E, pending: Vec<Id>) -> Work {
        let mut numbers = Numbers::new(2);
        match self.call {
            Call::Enter => {
                let room = usize::try_from(OFTEN).expect("a few");
                let given: Vec<E::Id> = numbers.ids(room).iter().map(E::id).collect();
                pending[..room].iter().for_each(|id| estimator.tx_left(&E::id(id)));
                let calls = move || given.iter().for_each(|id| estimator.tx_entered(*id, black_box(5_000), HEIGHT));
                Work { calls: Box::new(calls), number: OFTEN }
            }
            Call::Leave => {
                let mut given = pending;
                numbers.shuffle(&mut given);
                given.truncate(usize::try_from(OFTEN).expect("a few"));
                let given: Vec<E::Id> = given.iter().map(E::id).collect();
                Work { calls: Box::new(move || given.iter().for_each(|id| estimator.tx_left(id))), number: OFTEN }
            }
            Call::Block(listed) => {
                let ids: Vec<E::Id> = listing(listed, self.drawn_from, pending, &mut numbers).iter().map(E::id).collect();
                Work { calls: Box::new(move || estimator.block_connected(&ids, HEIGHT + 1)), number: 1 }
            }
            Call::Gap(width) => Work { calls: Box::new(move || estimator.block_connected(&[], HEIGHT + width)), number: 1 },
            Call::Estimate(targets) => {
                let from = if targets == 1 { 6 } else { 1 };
                let all = move || (from..from + targets).filter_map(|target| estimator.estimate(black_box(E::WIDTH * target))).sum::<u64>();
                Work { calls: Box::new(move || (0..OFTEN).for_each(|_| _ = black_box(all()))), number: OFTEN }
            }
            Call::Write => {
                let mut written = Vec::with_capacity(1);
                Work { calls: Box::new(move || written.push(estimator.to_history_bytes())), number: 1 }
            }
            Call::Read(_) => unreachable!("reading starts from no state"),
        }
    }
}

/// A block's list, in no order: so many of the pending ids, and others where there are not as many; or each one drawn from a few of them.
fn listing(listed: usize, drawn_from: Option<usize>, mut ids: Vec<Id>, numbers: &mut Numbers) -> Vec<Id> {
    numbers.shuffle(&mut ids);
    if let Some(few) = drawn_from {
        ids.truncate(few);
        return (0..listed).map(|_| ids[usize::try_from(numbers.below(few as u64)).expect("within the list")]).collect();
    }
    ids.truncate(listed);
    ids.extend(numbers.ids(listed - ids.len()));
    numbers.shuffle(&mut ids);
    ids
}

fn order_named(word: &str) -> Option<Order> {
    Some(match word {
        "rising" => Order::Rising,
        "reversed" => Order::Reversed,
        "shuffled" => Order::Shuffled,
        "repeats" => Order::Repeats,
        "counters" => Order::Counters,
        _ => return None,
    })
}
