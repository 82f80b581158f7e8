//! Bytes that play no part (#112): with each of them changed, each engine gives
//! the same, whatever the budget.

mod common;

use common::{codes, plain, settings};
use desk::engine;
use desk::generate::{Case, Generator, Kind, Random};
use desk::second::account::Account;
use desk::second::machine::{Status, CYCLE_LIMIT};
use desk::second::memory::Memory;
use desk::second::part::{no_part, played};
use desk::second::pipeline::{Pipeline, Settings};
use desk::second::plain::Plain;
use desk::second::replay::{read_registers, Chosen};
use desk::second::window::Window;

/// Programs of each kind; of large ones a tenth.
const PROGRAMS: usize = 2_000;
/// Instructions of a history.
const MOST: usize = 200;

/// What the programs of one kind showed.
#[derive(Debug, Default)]
struct Seen {
    /// Programs that stop within the premise, and have bytes without a part.
    compared: usize,
    /// Those, by the status at the stop.
    stops: [usize; 5],
    /// Bytes that were changed.
    bytes: usize,
    /// Programs whose pipeline held another instruction in some clock: fetched
    /// on a wrong path, or behind the stop.
    astray: usize,
    /// Programs that gave something else with a byte changed that does play a
    /// part.
    tight: usize,
}

/// A case in one memory or two, seen through a window or not.
#[derive(Clone)]
struct Framed {
    case: Case,
    seam: usize,
    window: Option<Window>,
}

#[test]
fn bytes_without_a_part_may_hold_anything() {
    try_all("one memory", 0x112, |_, case| Framed {
        case,
        seam: 0,
        window: None,
    });
}

/// #110: one engine more that only reads the first bytes.
#[test]
fn so_they_may_over_two_memories() {
    try_all("two memories", 0x110, |generator, case| Framed {
        seam: generator.seam(&case),
        case,
        window: None,
    });
}

/// #113: a program that patches itself has no premise to meet.
#[test]
fn so_they_may_with_a_window() {
    try_all("a window", 0x113, |generator, case| Framed {
        seam: 0,
        window: Some(generator.window(&case)),
        case,
    });
}

/// Programs of every kind in such a frame.
fn try_all(name: &str, seed: u64, frame: impl Fn(&mut Generator, Case) -> Framed) {
    for kind in Kind::ALL {
        let programs = match kind {
            Kind::Refusals => continue,
            Kind::Large => PROGRAMS / 10,
            _ => PROGRAMS,
        };
        let mut generator = Generator::new(seed + kind as u64);
        let mut random = Random::new(kind as u64);
        let mut seen = Seen::default();
        for _ in 0..programs {
            let case = generator.case_of(kind);
            let framed = frame(&mut generator, case);
            compare(&framed, &mut random, &mut seen);
        }
        println!("{name}, {}: {seen:?}", kind.name());
        assert!(seen.compared > programs / 20, "{seen:?}");
        assert!(seen.tight > seen.compared / 8, "{seen:?}");
        assert!(seen.astray > 0, "{seen:?}");
    }
}

/// Both engines on an image and on another that differs only at bytes without
/// a part.
fn compare(one: &Framed, random: &mut Random, seen: &mut Seen) {
    let account = one.account(Settings::default());
    let met = account.stopped && account.premise_reach() == account.performed.len();
    let mut machine = one.start();
    let mut image = one.case.image.clone();
    let memory = Memory::split(&mut image, one.seam);
    let played = played(&mut machine, memory, MOST as u64);
    let junk: Vec<usize> = no_part(&played).into_iter().flatten().collect();
    if !met || junk.is_empty() {
        return;
    }
    let mut two = one.clone();
    for at in &junk {
        two.case.image[*at] ^= 1 + random.below(255) as u8;
    }
    compare_plain(one, &two);
    let strays = settings::ALL.map(|settings| compare_clocks(one, &two, settings));
    compare_replays(one, &two, random);
    seen.compared += 1;
    seen.stops[machine.status.number() as usize] += 1;
    seen.bytes += junk.len();
    seen.astray += usize::from(strays.contains(&true));
    seen.tight += usize::from(is_tight(one, &played, random));
}

impl Framed {
    fn start(&self) -> Plain {
        let case = &self.case;
        let registers = read_registers(&case.registers);
        Plain {
            window: self.window,
            ..plain(&case.image, registers, codes(case.codes), case.start)
        }
    }

    /// The account of its run, with settings but for the window.
    fn account(&self, settings: Settings) -> Account {
        let settings = Settings {
            window: self.window,
            ..settings
        };
        let mut image = self.case.image.clone();
        let memory = Memory::split(&mut image, self.seam);
        Account::of(&mut self.start(), memory, MOST, settings)
    }

    fn pipeline(&self, settings: Settings) -> Pipeline {
        let case = &self.case;
        let registers = read_registers(&case.registers);
        let size = case.image.len() as u64;
        let settings = Settings {
            window: self.window,
            ..settings
        };
        Pipeline::fresh(size, registers, codes(case.codes), case.start, settings).expect("a start")
    }

    /// The settings of a replay, as numbers.
    fn chosen(&self) -> Chosen {
        let (first, end) = self
            .window
            .map_or((0, 0), |window| (window.first, window.end));
        Chosen {
            windowed: u64::from(self.window.is_some()),
            first,
            end,
            ..Chosen::default()
        }
    }
}

/// Two final memories differ only where the images do.
fn differ_at_most(images: [&Framed; 2], memories: [&[u8]; 2]) -> bool {
    let [one, two] = images.map(|framed| &framed.case.image);
    let memories = memories[0].iter().zip(memories[1]);
    let images = one.iter().zip(two);
    images
        .zip(memories)
        .all(|((a, b), (x, y))| a != b || x == y)
}

fn compare_plain(one: &Framed, two: &Framed) {
    let (mut first, mut second) = (one.start(), two.start());
    let (mut memory, mut changed) = (one.case.image.clone(), two.case.image.clone());
    for _ in 0..MOST {
        let lent = [&mut memory, &mut changed].map(|bytes| Memory::split(bytes, one.seam));
        let [lent_one, lent_two] = lent;
        first.step(lent_one).expect("a step");
        second.step(lent_two).expect("a step");
        assert_eq!(first, second);
        assert!(differ_at_most([one, two], [&memory, &changed]));
    }
}

/// The pipeline clock by clock, to the stop and beyond: all but the stages and
/// the predicted address. Tells whether those differed in some clock.
fn compare_clocks(one: &Framed, two: &Framed, settings: Settings) -> bool {
    let account = one.account(settings);
    let due = account.performed.last().map_or(0, |last| last.due);
    let (mut first, mut second) = (one.pipeline(settings), two.pipeline(settings));
    let (mut memory, mut changed) = (one.case.image.clone(), two.case.image.clone());
    let mut astray = false;
    for _ in 0..due + 3 {
        let lent = [&mut memory, &mut changed].map(|bytes| Memory::split(bytes, one.seam));
        let [lent_one, lent_two] = lent;
        first.clock(lent_one).expect("a clock");
        second.clock(lent_two).expect("a clock");
        astray |= first != second;
        let as_first = Pipeline {
            predicted: first.predicted,
            d: first.d,
            e: first.e,
            m: first.m,
            w: first.w,
            ..second
        };
        assert_eq!(first, as_first);
        assert!(differ_at_most([one, two], [&memory, &changed]));
    }
    assert!(first.status != Status::Aok);
    astray
}

/// What a replay answers, the registers and memory: by the product's function
/// for such a frame, or by the second program where it has none.
fn replayed(framed: &Framed, budget: u64) -> (Vec<u64>, Vec<u8>, Vec<u8>) {
    let case = &framed.case;
    let (mut memory, mut registers) = (case.image.clone(), case.registers.clone());
    let (start, codes, chosen) = (case.start, case.codes, framed.chosen());
    let mut block = [0; 88];
    let answer = if framed.seam > 0 {
        let split = engine::REPLAY_SPLIT.unwrap_or(desk::second::replay_split);
        let (program, writable) = memory.split_at_mut(framed.seam);
        let lent = (&mut registers, &mut block);
        split(
            program, writable, lent.0, lent.1, start, codes, budget, chosen,
        )
    } else if framed.window.is_some() {
        let set = engine::REPLAY_SET.unwrap_or(desk::second::replay_set);
        set(
            &mut memory,
            &mut registers,
            &mut block,
            start,
            codes,
            budget,
            chosen,
        )
    } else {
        let short = &mut block[..40];
        engine::replay(&mut memory, &mut registers, short, start, codes, budget)
    };
    let words: [u64; 11] = engine::words(&block);
    ([&[answer], &words[..]].concat(), registers, memory)
}

/// Whatever the cycle budget: the most, and some that are spent in mid-run.
fn compare_replays(one: &Framed, two: &Framed, random: &mut Random) {
    for budget in [CYCLE_LIMIT, 1 + random.below(40), 1 + random.below(400)] {
        let (first, second) = (replayed(one, budget), replayed(two, budget));
        assert_eq!((&first.0, &first.1), (&second.0, &second.1));
        assert_eq!(first.0[0], 0);
        assert!(differ_at_most([one, two], [&first.2, &second.2]));
    }
}

/// Whether a byte that does play a part, changed, makes a difference.
fn is_tight(one: &Framed, played: &[bool], random: &mut Random) -> bool {
    let places: Vec<usize> = (0..played.len()).filter(|at| played[*at]).collect();
    if places.is_empty() {
        return false;
    }
    let mut two = one.clone();
    two.case.image[random.pick(&places)] ^= 1 + random.below(255) as u8;
    let (first, second) = (replayed(one, 4_000), replayed(&two, 4_000));
    let same = (first.0, first.1) == (second.0, second.1);
    !same || !differ_at_most([one, &two], [&first.2, &second.2])
}
