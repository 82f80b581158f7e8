//! Within the premise, the pipelined engine meets the account of the plain
//! engine's history; and running a then b clocks equals running a + b.

mod common;

use common::tally::Tally;
use common::{codes, plain, seams, settings, windows};
use desk::generate::{Case, Generator, Kind};
use desk::second::account::{Account, Kind as Charge, Performed};
use desk::second::machine::Status;
use desk::second::memory::Memory;
use desk::second::pipeline::{Kinds, Logs, Pipeline, Settings};
use desk::second::plain::Plain;
use desk::second::replay::read_registers;
use desk::second::table::{IADDQ, JXX, MRMOVQ, POPQ};
use std::collections::BTreeMap;

/// Programs of each kind that the account is tried on; of large ones a tenth.
const PROGRAMS: usize = 6_000;
/// Instructions of a history; enough for every charge to come up.
const MOST: usize = 120;

/// What the programs of one kind showed.
#[derive(Debug, Default)]
struct Seen {
    whole: usize,
    cut: usize,
    retired: u64,
    charged: [u64; 4],
    stops: [usize; 5],
    /// Stops by the reason of a failed fetch (#107), 0 for none.
    faults: [usize; 6],
    added: Added,
    guessed: Guessed,
    /// Stores and calls behind loads of a register of theirs, charged or not.
    stores: BTreeMap<(&'static str, bool), usize>,
    /// Runs with all instructions in the program part; those of them that store.
    read_only: [usize; 2],
    /// What was seen of stores into a window.
    tally: Tally,
}

/// The iaddq among them: how many, by -2^63, by 2^63 - 1, and charged for a
/// load.
#[derive(Debug, Default)]
struct Added {
    performed: usize,
    least: usize,
    most: usize,
    charged: usize,
}

impl Added {
    fn count(&mut self, performed: &Performed) {
        let Some(parts) = performed.parts.filter(|parts| parts.code == IADDQ) else {
            return;
        };
        self.performed += 1;
        self.least += usize::from(parts.constant == 1 << 63);
        self.most += usize::from(parts.constant == (1 << 63) - 1);
        self.charged += usize::from(performed.charge == Some(Charge::LoadUse));
    }
}

/// The conditional jumps among them: guessed skipped or taken, each rightly and
/// wrongly; those with C at the next address, and with its top bit set.
#[derive(Debug, Default)]
struct Guessed {
    skipped: [usize; 2],
    taken: [usize; 2],
    to_next: usize,
    top_bit: usize,
}

impl Guessed {
    /// Counts an instruction by its follower, which was charged or not.
    fn count(&mut self, settings: Settings, [jump, follower]: [&Performed; 2]) {
        let conditional = |code, function| code == JXX && function != 0;
        let Some(parts) = jump
            .parts
            .filter(|parts| conditional(parts.code, parts.function))
        else {
            return;
        };
        let next = jump.address + 9;
        let wrongly = usize::from(follower.charge == Some(Charge::Mispredict));
        match settings.rule {
            0 => self.taken[wrongly] += 1,
            2 if parts.constant < next => self.taken[wrongly] += 1,
            _ => self.skipped[wrongly] += 1,
        }
        self.to_next += usize::from(parts.constant == next);
        self.top_bit += usize::from(parts.constant >> 63 == 1);
    }

    /// Whether all that the rule can show has turned up.
    fn is_full(&self, settings: Settings) -> bool {
        let (skipped, taken) = (self.skipped, self.taken);
        let guesses = match settings.rule {
            0 => [taken, taken],
            1 => [skipped, skipped],
            _ => [skipped, taken],
        };
        let enough = |count: &usize| *count > 20;
        guesses.iter().flatten().all(enough) && [self.to_next, self.top_bit].iter().all(enough)
    }
}

/// What a store has of the register loaded just before it, and whether it is
/// charged for that.
fn behind_a_load([load, store]: [&Performed; 2]) -> Option<(&'static str, bool)> {
    let load = load
        .parts
        .filter(|parts| matches!(parts.code, MRMOVQ | POPQ))?;
    let parts = store.parts?;
    let name = settings::store_name(load.ra, parts.code, (parts.ra, parts.rb))?;
    Some((name, store.charge == Some(Charge::LoadUse)))
}

/// Every kind of store behind a load has turned up often, charged only where it
/// waits.
fn check_stores(settings: Settings, seen: &BTreeMap<(&'static str, bool), usize>) {
    assert_eq!(seen.len(), settings::STORES.len());
    for (number, name) in settings::STORES.into_iter().enumerate() {
        let stored_only = number == 0 || number == 3;
        let count = seen.get(&(name, !(settings.late && stored_only)));
        assert!(count.is_some_and(|count| *count > 20), "{name}: {count:?}");
    }
}

/// The pipelined engine at a case's start, with settings.
fn pipeline(case: &Case, settings: Settings) -> Pipeline {
    let registers = read_registers(&case.registers);
    let size = case.image.len() as u64;
    Pipeline::fresh(size, registers, codes(case.codes), case.start, settings).expect("a start")
}

/// The plain engine, brought along instruction by instruction.
struct Follower {
    machine: Plain,
    memory: Vec<u8>,
    seam: usize,
}

impl Follower {
    fn new(case: &Case, seam: usize, settings: Settings) -> Follower {
        let registers = read_registers(&case.registers);
        let machine = plain(&case.image, registers, codes(case.codes), case.start);
        Follower {
            machine: Plain {
                window: settings.window,
                ..machine
            },
            memory: case.image.clone(),
            seam,
        }
    }

    fn reach(&mut self, count: usize) {
        let mut memory = Memory::split(&mut self.memory, self.seam);
        while self.machine.count < count as u64 {
            self.machine.perform(&mut memory);
        }
    }

    /// The account of its run from here on, which it performs.
    fn account(&mut self, settings: Settings) -> Account {
        let memory = Memory::split(&mut self.memory, self.seam);
        Account::of(&mut self.machine, memory, MOST, settings)
    }
}

#[test]
fn the_pipeline_meets_the_account() {
    for kind in Kind::ALL {
        if kind == Kind::Refusals {
            continue;
        }
        for settings in settings::ALL {
            compare_kind(kind, settings);
        }
    }
}

/// Programs of one kind, the same for all settings.
fn compare_kind(kind: Kind, settings: Settings) {
    let mut generator = Generator::new(31 + kind as u64);
    let mut seen = Seen::default();
    let programs = match kind {
        Kind::Large => PROGRAMS / 10,
        _ => PROGRAMS,
    };
    for _ in 0..programs {
        compare(&generator.case_of(kind), 0, settings, &mut seen);
    }
    println!("{}, {settings:?}: {seen:?}", kind.name());
    assert!(seen.whole > programs / 8, "{} {seen:?}", kind.name());
    assert!(seen.stops[2..].iter().all(|stops| *stops > 0));
    if kind != Kind::RandomBytes {
        assert!(seen.charged[..3].iter().all(|cycles| *cycles > 20));
    }
    if let Kind::Soup | Kind::Charges = kind {
        let Added {
            performed,
            least,
            most,
            charged,
        } = seen.added;
        assert!([performed, least, most, charged]
            .iter()
            .all(|count| *count > 20));
    }
    if kind == Kind::Charges {
        assert!(seen.faults.iter().all(|stops| *stops > 20));
        assert!(seen.guessed.is_full(settings), "{:?}", seen.guessed);
        check_stores(settings, &seen.stores);
    }
}

/// #110: over two memories, with the seam at all kinds of places.
#[test]
fn the_pipeline_meets_the_account_over_two_memories() {
    let mut tally = Tally::default();
    let mut seen = Seen::default();
    for kind in Kind::ALL {
        let mut generator = Generator::new(0x110 + kind as u64);
        let programs = match kind {
            Kind::Refusals => 0,
            Kind::Large => PROGRAMS / 20,
            _ => PROGRAMS / 2,
        };
        for _ in 0..programs {
            let case = generator.case_of(kind);
            let seam = generator.seam(&case);
            for settings in settings::ALL {
                compare(&case, seam, settings, &mut seen);
            }
            count_seam(&mut tally, &case, seam);
        }
    }
    println!("{seen:?}");
    println!("{}", tally.table(seams::CLASSES));
    tally.check(seams::CLASSES, 20);
    assert!(seen.read_only.iter().all(|runs| *runs > 1_000));
    assert!(seen.faults.iter().all(|stops| *stops > 20));
}

/// #113: with a window there is no premise on stores, over one memory and over
/// two.
#[test]
fn with_a_window_the_pipeline_meets_the_account() {
    let mut seen = Seen::default();
    for kind in Kind::ALL {
        let mut generator = Generator::new(0x113 + kind as u64);
        let programs = match kind {
            Kind::Refusals => 0,
            Kind::Large => PROGRAMS / 20,
            Kind::Patching => 2 * PROGRAMS,
            _ => PROGRAMS / 4,
        };
        for number in 0..programs {
            let case = generator.case_of(kind);
            let (window, seam) = (generator.window(&case), generator.seam(&case));
            let seam = [0, 0, 0, seam][number % 4];
            for given in settings::ALL {
                let window = Some(window);
                compare(&case, seam, Settings { window, ..given }, &mut seen);
            }
        }
    }
    println!("{seen:?}");
    println!("{}", seen.tally.table(windows::CLASSES));
    seen.tally.check(windows::CLASSES, 20);
    assert!(seen.charged.iter().all(|cycles| *cycles > 1_000));
    assert!(seen.faults.iter().all(|stops| *stops > 20));
}

/// Counts what the plain engine does around the seam.
fn count_seam(tally: &mut Tally, case: &Case, seam: usize) {
    let mut plain = Follower::new(case, seam, Settings::default());
    let extent = Memory::split(&mut plain.memory, seam).extent();
    tally.count("memory", seams::parts_name(extent));
    while plain.machine.status == Status::Aok && plain.machine.count < MOST as u64 {
        seams::count_performed(tally, &plain.machine, &plain.memory, extent);
        plain.reach(plain.machine.count as usize + 1);
    }
}

/// Runs the pipeline clock by clock against the account of the plain history,
/// over memory with a seam, 0 for one memory.
fn compare(case: &Case, seam: usize, settings: Settings, seen: &mut Seen) {
    let mut whole = Follower::new(case, seam, settings);
    let account = whole.account(settings);
    let reach = account.premise_reach();
    let over = account.stopped && reach == account.performed.len();
    let last_clock = match reach {
        0 => 0,
        reach => account.performed[reach - 1].due + if over { 3 } else { 0 },
    };
    let mut memory = case.image.clone();
    let mut machine = pipeline(case, settings);
    let mut plain = [(); 3].map(|()| Follower::new(case, seam, settings));
    for clock in 1..=last_clock {
        let before = machine;
        let lent = Memory::split(&mut memory, seam);
        machine.clock(lent).expect("a clock");
        let follower = account.performed.get(machine.retired as usize + 1);
        windows::count_clock(&mut seen.tally, &before, &machine, follower);
        compare_clock(&account, &machine, clock, &mut plain[0]);
        compare_ahead(&account, (&machine, &memory), clock, &mut plain[1..]);
    }
    if over {
        compare_end(&machine, &memory, &whole, &account);
        seen.stops[machine.status.number() as usize] += 1;
        seen.faults[machine.fault.reason.number() as usize] += 1;
    }
    count_read_only(&account, seam, seen);
    if let Some(window) = settings.window {
        windows::count_history(&mut seen.tally, &account, window);
    }
    seen.whole += usize::from(over);
    seen.cut += usize::from(!over);
    seen.retired += machine.retired;
    count_performed(&account.performed[..reach], settings, seen);
    let kinds = machine.kinds;
    let charged = [kinds.load_use, kinds.mispredict, kinds.returns, kinds.patch];
    for (sum, cycles) in seen.charged.iter_mut().zip(charged) {
        *sum += cycles;
    }
}

/// #110: where every performed instruction lies in the program part, the premise
/// on stores is met by itself.
fn count_read_only(account: &Account, seam: usize, seen: &mut Seen) {
    let inside = |one: &Performed| !one.own_bytes.is_empty() && one.own_bytes.end <= seam as u64;
    if account.stopped && account.performed.iter().all(inside) {
        assert_eq!(account.premise_reach(), account.performed.len());
        let stores = account.performed.iter().any(|one| !one.written.is_empty());
        seen.read_only[0] += 1;
        seen.read_only[1] += usize::from(stores);
    }
}

/// Counts what was compared of a history, each instruction and each with its
/// follower.
fn count_performed(performed: &[Performed], settings: Settings, seen: &mut Seen) {
    for one in performed {
        seen.added.count(one);
    }
    for pair in performed.windows(2) {
        seen.guessed.count(settings, [&pair[0], &pair[1]]);
        if let Some(store) = behind_a_load([&pair[0], &pair[1]]) {
            *seen.stores.entry(store).or_default() += 1;
        }
    }
}

/// After a clock: what has retired, when, the charges and the registers.
fn compare_clock(account: &Account, machine: &Pipeline, clock: u64, plain: &mut Follower) {
    let due = account.due_by(clock);
    plain.reach(due);
    assert_eq!(machine.retired, due as u64);
    assert_eq!(machine.registers, plain.machine.registers);
    assert_eq!(machine.status, plain.machine.status);
    assert_eq!(machine.last, plain.machine.last);
    assert_eq!(machine.fault, plain.machine.fault);
    let kinds = Kinds {
        load_use: account.charged(Charge::LoadUse, due),
        mispredict: account.charged(Charge::Mispredict, due),
        returns: account.charged(Charge::Return, due),
        patch: account.charged(Charge::Patch, due),
    };
    assert_eq!(machine.kinds, kinds);
    let stopped = machine.status != Status::Aok;
    let cycles = match account.performed[..due].last() {
        Some(last) if stopped => last.due,
        _ => clock,
    };
    assert_eq!(machine.cycles, cycles);
    if let (Some(last), true) = (account.performed[..due].last(), due > 0) {
        let charges = kinds.load_use + kinds.mispredict + kinds.returns + kinds.patch;
        assert_eq!(last.due, due as u64 + 4 + charges);
        assert!(last.due <= 4 * due as u64 + 1);
    }
}

/// In mid-run memory is the plain engine's after the instructions due by the
/// next clock, and codes are those after the ones due by the clock after it.
fn compare_ahead(
    account: &Account,
    (machine, memory): (&Pipeline, &[u8]),
    clock: u64,
    plain: &mut [Follower],
) {
    let reach = account.premise_reach();
    plain[0].reach(account.due_by(clock + 1).min(reach));
    plain[1].reach(account.due_by(clock + 2).min(reach));
    if account.due_by(clock + 2) <= reach {
        assert_eq!(machine.codes, plain[1].machine.codes);
        assert!(memory == plain[0].memory);
    }
}

fn compare_end(machine: &Pipeline, memory: &[u8], plain: &Follower, account: &Account) {
    assert!(memory == plain.memory);
    assert_eq!(machine.registers, plain.machine.registers);
    assert_eq!(machine.codes, plain.machine.codes);
    assert_eq!(machine.status, plain.machine.status);
    assert_eq!(machine.last, plain.machine.last);
    assert_eq!(machine.fault, plain.machine.fault);
    assert_eq!(machine.retired, account.performed.len() as u64);
}

/// A run with logs; gives the record, the memory and the two logs.
fn logged(
    case: &Case,
    settings: Settings,
    budgets: &[u64],
) -> (Pipeline, Vec<u8>, Vec<u64>, Vec<u64>) {
    let mut machine = pipeline(case, settings);
    let mut memory = case.image.clone();
    let (mut addresses, mut cycles) = (Vec::new(), Vec::new());
    for budget in budgets {
        let before = machine.retired;
        let (mut lent_a, mut lent_c) = (vec![1; *budget as usize], vec![2; *budget as usize]);
        let logs = Logs {
            addresses: &mut lent_a,
            cycles: &mut lent_c,
        };
        machine
            .run(&mut memory, *budget, Some(logs))
            .expect("a run");
        let retired = (machine.retired - before) as usize;
        assert!(lent_a[retired..].iter().all(|word| *word == 1));
        assert!(lent_c[retired..].iter().all(|word| *word == 2));
        addresses.extend(&lent_a[..retired]);
        cycles.extend(&lent_c[..retired]);
    }
    (machine, memory, addresses, cycles)
}

#[test]
fn running_a_then_b_equals_a_and_b() {
    let mut generator = Generator::new(5);
    let mut compared = 0;
    while compared < 6_000 {
        let case = generator.case();
        if case.kind == Kind::Refusals {
            continue;
        }
        let (a, b) = (1 + case.budget % 61, 1 + case.budget % 97);
        for settings in settings::ALL {
            let joined = logged(&case, settings, &[a + b]);
            assert!(joined == logged(&case, settings, &[a, b]));
            let mut memory = case.image.clone();
            let mut machine = pipeline(&case, settings);
            for _ in 0..a + b {
                machine.clock(&mut memory).expect("a clock");
            }
            assert!((machine, memory) == (joined.0, joined.1));
        }
        compared += 1;
    }
}

/// The logs against the account, for programs that stop within the premise.
#[test]
fn logs_show_the_account() {
    let mut generator = Generator::new(6);
    for _ in 0..6_000 {
        let case = generator.case_of(Kind::Charges);
        for settings in settings::ALL {
            compare_logs(&case, settings);
        }
    }
}

fn compare_logs(case: &Case, settings: Settings) {
    let account = Follower::new(case, 0, settings).account(settings);
    let reach = account.premise_reach();
    if reach == 0 {
        return;
    }
    let budget = account.performed[reach - 1].due;
    let (_, _, addresses, cycles) = logged(case, settings, &[budget]);
    let first = account.performed[..reach].iter();
    assert!(first.clone().map(|one| one.address).eq(addresses));
    assert!(first.map(|one| one.due).eq(cycles));
}
