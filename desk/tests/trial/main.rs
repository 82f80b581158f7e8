//! Every entry of both engines against the second program by the letter: the
//! answer, the whole record, all memory bytes and all words of the logs, on
//! records fresh, reached and made by hand.

#[cfg(not(trial_archive))]
compile_error!(
    "the entries of both engines are not built for this test: \
     target/staticlib/libtrial.a is missing. \
     Run `rt staticlib trial` at the root of the repository, or `desk/check`, which does all"
);

mod blocks;
#[path = "../common/mod.rs"]
mod common;
mod counts;
mod entries;
mod fetching;
#[cfg(trial_split)]
mod split;

use common::tally::Tally;
use common::{seams, settings, windows};
use counts::{reasons_name, Compared, Counted, CLASSES};
use desk::generate::{Call, Calls, Way};
use desk::second::Status;
use entries::{Engine, Entry, PIPE_CLOCK, PIPE_RUN, PIPE_RUN_UNLOGGED, PLAIN_RUN, PLAIN_STEP};
use std::time::Instant;

/// How many calls are compared; unoptimised code gets fewer.
const CALLS: u64 = if cfg!(debug_assertions) {
    100_000
} else {
    600_000
};
/// The longest run that is taken apart into single steps or clocks.
const LONGEST_APART: u64 = 12;

#[test]
fn every_entry_is_the_letters_equal() {
    const SEEDS: [u64; 2] = [0x7e57, 0xab1e];
    let begin = Instant::now();
    let mut tally = Tally::default();
    std::thread::scope(|scope| {
        let parts = SEEDS.map(|seed| scope.spawn(move || compare_many(seed, CALLS / 2)));
        for part in parts {
            tally.join(part.join().expect("calls that agree"));
        }
    });
    let spent = begin.elapsed().as_secs_f64();
    println!("compared {CALLS} calls in {spent:.1} s");
    let seams = if cfg!(trial_split) {
        seams::CALL_CLASSES
    } else {
        &[]
    };
    let classes = [CLASSES, settings::CLASSES, seams, windows::CALL_CLASSES].concat();
    println!("{}", tally.table(&classes));
    tally.check(&classes, 1);
}

/// Compares calls from a seed, each entry in its turn.
fn compare_many(seed: u64, number: u64) -> Tally {
    let mut trial = Trial {
        calls: calls(seed),
        tally: Tally::default(),
        name: String::new(),
    };
    for turn in 0..number {
        trial.name = format!("seed {seed:#x}, call {turn}");
        match turn % 8 {
            0..=2 => trial.compare_next(&PIPE_RUN, &PIPE_CLOCK),
            3 => trial.compare_next(&PIPE_RUN_UNLOGGED, &PIPE_CLOCK),
            4 | 5 => trial.compare_next(&PIPE_CLOCK, &PIPE_CLOCK),
            6 => trial.compare_next(&PLAIN_RUN, &PLAIN_STEP),
            _ => trial.compare_next(&PLAIN_STEP, &PLAIN_STEP),
        }
    }
    trial.tally
}

/// Calls of which half have memory in two parts, where the product takes it so
/// (#110).
fn calls(seed: u64) -> Calls {
    match cfg!(trial_split) {
        true => Calls::splitting(seed),
        false => Calls::new(seed),
    }
}

/// Calls under comparison.
struct Trial {
    calls: Calls,
    tally: Tally,
    /// Says which call it is, where two do not agree.
    name: String,
}

impl Trial {
    /// Compares the next call of an entry, the same cut in two and taken apart
    /// into single steps or clocks, and a start.
    fn compare_next<R: Counted>(&mut self, entry: &Entry<R>, single: &Entry<R>) {
        let (origin, given) = self.calls.call::<R>(entry.way);
        let reasons = given.record.reasons(&given);
        let left = self.compare(entry, &given);
        assert_eq!(left.is_none(), !reasons.is_empty(), "{}", self.name);
        self.compare_start(&given.record);
        let compared = Compared {
            origin,
            given: &given,
            reasons: &reasons,
            left: left.as_ref().unwrap_or(&given),
        };
        R::count(&compared, &mut self.tally, entry.refused);
        if let (Some(whole), true) = (left, entry.way != Way::Single && given.budget > 1) {
            self.cut(entry, &given, &whole);
            self.take_apart(single, &given, &whole);
        }
    }

    /// Compares one call; gives what it left, or none where it was refused,
    /// which leaves all as it was given.
    fn compare<R: Engine>(&self, entry: &Entry<R>, given: &Call<R>) -> Option<Call<R>> {
        let (mut product, mut letter) = (given.clone(), given.clone());
        let answer = (entry.product)(&mut product);
        let expected = (entry.letter)(&mut letter);
        let name = &self.name;
        assert_eq!(
            answer, expected,
            "{name}: {} of {:?}",
            entry.name, given.record
        );
        assert!(
            product == letter,
            "{name}: {} of {:?}, budget {}, memory of {} bytes\nleft {:?}\nand the letter leaves {:?}",
            entry.name,
            given.record,
            given.budget,
            given.memory.len(),
            product.record,
            letter.record,
        );
        if answer != 0 {
            assert!(product == *given, "{name}: a refusal has changed something");
            return None;
        }
        let performed = performed(given, &product);
        for (before, after) in given.logs.iter().zip(&product.logs) {
            assert!(
                before[performed..] == after[performed..],
                "{name}: the rest of a log"
            );
        }
        Some(product)
    }

    /// A fresh start over a record, with its settings, refused ones too, in a
    /// memory of any size at any address.
    fn compare_start<R: Engine>(&mut self, given: &R) {
        let (size, start) = self.calls.start();
        let (mut product, mut letter) = (given.clone(), given.clone());
        let answer = product.start_by_product(size, start);
        let expected = letter.start_by_letter(size, start);
        let name = &self.name;
        assert_eq!(answer, expected, "{name}: start {start} in {size} bytes");
        assert_eq!(product, letter, "{name}: start {start} in {size} bytes");
        if answer != 0 {
            assert!(
                product == *given,
                "{name}: a refused start has changed something"
            );
        }
        let reasons = given.start_reasons(size, start);
        assert_eq!(answer == 0, reasons.is_empty(), "{name}");
        self.tally.count(R::START_REFUSED, reasons_name(&reasons));
    }

    /// A run cut in two: the second part is lent what the first left of the
    /// logs, so that they are joined.
    fn cut<R: Counted>(&mut self, entry: &Entry<R>, given: &Call<R>, whole: &Call<R>) {
        let first = Call {
            // Anywhere: the size of memory has nothing to do with the budget.
            budget: 1 + given.memory.len() as u64 % (given.budget - 1),
            ..given.clone()
        };
        let mut rest = self.compare(entry, &first).expect("a part of a run");
        let logs = rest.logs.clone();
        let performed = performed(given, &rest);
        for log in &mut rest.logs {
            log.drain(..performed);
        }
        rest.budget = given.budget - first.budget;
        let Some(mut second) = self.compare(entry, &rest) else {
            // A clock does not keep refusal 5 away from a record made by hand.
            self.tally.count(R::RUNS, "second part refused");
            return;
        };
        for (log, first_part) in second.logs.iter_mut().zip(&logs) {
            log.splice(..0, first_part[..performed].iter().copied());
        }
        second.budget = given.budget;
        assert!(second == *whole, "{}: cut in two", self.name);
        self.tally.count(R::RUNS, "cut");
        if given.record.status() == Status::Aok && rest.record.status() != Status::Aok {
            self.tally.count(R::RUNS, "stopped in the first part");
        }
    }

    /// A short run as that many single steps or clocks.
    fn take_apart<R: Counted>(&mut self, single: &Entry<R>, given: &Call<R>, whole: &Call<R>) {
        if given.budget > LONGEST_APART {
            return;
        }
        let mut left = Call {
            budget: 1,
            logs: Vec::new(),
            ..given.clone()
        };
        for _ in 0..given.budget {
            let Some(next) = self.compare(single, &left) else {
                return;
            };
            left = next;
        }
        assert_eq!(left.record, whole.record, "{}: one by one", self.name);
        assert!(left.memory == whole.memory, "{}: one by one", self.name);
        self.tally.count(R::RUNS, "one by one");
    }
}

/// How many instructions a call performed or retired.
fn performed<R: Engine>(given: &Call<R>, left: &Call<R>) -> usize {
    (left.record.performed() - given.record.performed()) as usize
}
