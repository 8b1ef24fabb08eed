//! One row of the benchmark on one side: `bench original|library|wide ROW count|time|memory`, where `wide` is the library's other board. A row is a call in a state; `rows.rs`
//! tells how it is named.
//!
//! - `count` makes the row's calls once, inside the function `measured` and between two calls of getppid, so that a tool can count the instructions executed there.
//!   Prints the number of calls.
//! - `time` makes them again and again, each time in the same state. Prints the least nanoseconds a call.
//! - `memory` prints the bytes that the estimator holds before the calls, and the most that were held beside them during the calls.

mod heap;
mod inputs;
mod lent;
mod rows;
mod sides;

use heap::Heap;
use inputs::History;
use lent::Lent;
use rows::Row;
use sides::Estimator;
use std::env;
use std::time::Duration;

#[global_allocator]
static HEAP: Heap = Heap::new();

fn main() {
    let words: Vec<String> = env::args().skip(1).collect();
    let words: Vec<&str> = words.iter().map(String::as_str).collect();
    let [side, row, mode] = words.as_slice() else { stop("usage: bench original|library|wide ROW count|time|memory") };
    let Some(row) = Row::named(row) else { stop(&format!("'{row}' names no row")) };
    match (*side, row.lent_by_hand()) {
        ("original", _) => run::<original::FeeEstimator>(&row, mode),
        ("library", false) => run::<izrughem::FeeEstimator>(&row, mode),
        ("library", true) => run::<Lent>(&row, mode),
        ("wide", false) => run::<izrughem::WideFeeEstimator>(&row, mode),
        _ => stop(&format!("no side '{side}' for this row")),
    }
}

fn stop(why: &str) -> ! {
    eprintln!("bench: {why}");
    std::process::exit(2)
}

fn run<E: Estimator>(row: &Row, mode: &str) {
    let history = row.history(E::WIDTH);
    match mode {
        "count" => {
            let mut work = row.work::<E>(&history);
            mark();
            measured(&mut *work.calls);
            mark();
            println!("{}", work.number);
        }
        "time" => println!("{:.1}", least_time::<E>(row, &history)),
        "memory" => {
            let held = HEAP.held();
            let mut work = row.work::<E>(&history);
            let before = HEAP.held();
            HEAP.forget_most();
            measured(&mut *work.calls);
            println!("{} {}", before - held, HEAP.most() - before);
        }
        _ => stop(&format!("no mode '{mode}'")),
    }
}

/// A system call that changes nothing: a tool that sees it knows where the calls begin and end.
fn mark() {
    std::hint::black_box(std::os::unix::process::parent_id());
}

/// The calls of a row. A function of its own, under a plain name, for the tools that count what is executed in it.
#[unsafe(no_mangle)]
#[inline(never)]
extern "Rust" fn measured(calls: &mut dyn FnMut()) {
    calls();
}

/// The least time of one call, in nanoseconds, over 5 to 50 runs, of half a second together where 50 are enough for that.
fn least_time<E: Estimator>(row: &Row, history: &History) -> f64 {
    let (mut spent, mut runs, mut least) = (Duration::ZERO, 0, f64::INFINITY);
    while runs < 5 || (runs < 50 && spent < Duration::from_millis(500)) {
        let mut work = row.work::<E>(history);
        let start = sides::processor_time();
        measured(&mut *work.calls);
        let took = sides::processor_time() - start;
        spent += took;
        runs += 1;
        least = least.min(took.as_nanos() as f64 / f64::from(work.number));
    }
    least
}
