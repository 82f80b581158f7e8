//! What turned up among the calls that were compared.

use crate::common::reasons::{reason_name, REASONS};
use crate::common::tally::{Classes, Tally};
use crate::common::{seams, settings, windows};
use crate::entries::Engine;
use desk::generate::{Call, Origin};
use desk::second::letter::{Executed, Instruction, Machine, Pipeline};
use desk::second::machine::{Refusal, Status};
use desk::second::table::{CALL, CMOV, IADDQ, JXX, OPQ, PUSHQ, RET, RMMOVQ};
use desk::second::window;

const ORIGINS: [&str; 3] = ["fresh", "reached", "hand-made"];
const STATUSES: [&str; 4] = ["AOK", "HLT", "ADR", "INS"];
const BUDGETS: [&str; 5] = ["1", "2-9", "10-99", "100-9999", "10000 or more"];
const SIZES: [&str; 7] = [
    "1",
    "2-255",
    "256-4095",
    "4096",
    "4097-65534",
    "65535",
    "65536",
];
const ADDRESSES: [&str; 2] = ["inside", "outside"];
const LIMITS: [&str; 2] = ["not reached", "reached"];
const LOGS: [&str; 3] = ["as long as the budget", "longer", "shorter"];
const HELD: [&str; 14] = [
    "halt", "nop", "cmovXX", "irmovq", "rmmovq", "mrmovq", "OPq", "jXX", "call", "ret", "pushq",
    "popq", "iaddq", "bubble",
];
/// The refusals that may apply together to a run with logs, without, and to a
/// start.
const LOGGED: [&str; 16] = [
    "nothing", "1", "3", "1+3", "4", "1+4", "3+4", "1+3+4", "5", "1+5", "3+5", "1+3+5", "4+5",
    "1+4+5", "3+4+5", "1+3+4+5",
];
const UNLOGGED: [&str; 8] = ["nothing", "1", "3", "1+3", "5", "1+5", "3+5", "1+3+5"];
const STARTS: [&str; 8] = ["nothing", "1", "5", "1+5", "6", "1+6", "5+6", "1+5+6"];
const FAULTS: [&str; 6] = ["rA", "rB", "code", "move", "jump", "OPq"];

/// Every class that has to occur, under its heading. An entry's calls are
/// counted by all the refusals that apply together, and by the rest only where
/// none does; "refused for D" and the like name the one fault of a record that
/// has no other.
pub const CLASSES: &Classes = &[
    ("plain::run refused for", &LOGGED),
    ("plain::step refused for", &UNLOGGED),
    ("plain::start refused for", &STARTS),
    ("pipe::start refused for", &STARTS),
    ("pipe::run refused for", &LOGGED),
    ("pipe::run_unlogged refused for", &UNLOGGED),
    ("pipe::clock refused for", &UNLOGGED),
    ("plain record", &ORIGINS),
    ("plain status given", &STATUSES),
    ("plain status left", &STATUSES),
    ("plain stopped for", &REASONS),
    ("plain memory", &SIZES),
    ("plain address given", &ADDRESSES),
    ("plain budget", &BUDGETS),
    ("plain limit", &LIMITS),
    ("plain log", &LOGS),
    (
        "plain run",
        &["cut", "stopped in the first part", "one by one"],
    ),
    ("pipeline record", &ORIGINS),
    ("pipeline status given", &STATUSES),
    ("pipeline status left", &STATUSES),
    ("pipeline stopped for", &REASONS),
    ("pipeline stopped by hand for", &REASONS),
    ("pipeline memory", &SIZES),
    ("pipeline address given", &ADDRESSES),
    ("pipeline budget", &BUDGETS),
    ("pipeline limit", &LIMITS),
    ("pipeline logs", &LOGS),
    (
        "pipeline run",
        &[
            "cut",
            "stopped in the first part",
            "second part refused",
            "one by one",
        ],
    ),
    ("hand-made in D", &HELD),
    ("hand-made in E", &HELD),
    ("hand-made in M", &HELD),
    ("hand-made in W", &HELD),
    ("hand-made kept", &HELD),
    ("refused for D", &FAULTS),
    ("refused for E", &FAULTS),
    ("refused for M", &FAULTS),
    ("refused for W", &FAULTS),
    ("refused for kept", &FAULTS),
    (
        "refused for",
        &[
            "retired",
            "load-use",
            "mispredict",
            "return",
            "patch",
            "rule",
            "window",
        ],
    ),
    (
        "bad status in",
        &["D", "E", "M, of its fetch", "M, by its access", "W"],
    ),
    (
        "control in the first clock",
        &[
            "none",
            "load-use",
            "misprediction",
            "ret in D",
            "ret in E",
            "ret in M",
            "load-use and ret in D",
            "misprediction and ret in D",
            "OPq in E before a bad M",
            "iaddq in E before a bad M",
        ],
    ),
    (
        "iaddq in E",
        &[
            "function 0",
            "another function",
            "-2^63",
            "2^63 - 1",
            "overflow",
        ],
    ),
    ("iaddq in D", &["load-use", "none"]),
    (
        "fetch address",
        &[
            "predicted",
            "C of a jump in M",
            "next of a jump in M",
            "ret in W",
            "jump in M and ret in W",
        ],
    ),
    ("own next address", &["of a jump in M", "of a call in M"]),
    (
        "charged",
        &["nothing", "load-use", "mispredict", "return", "patch"],
    ),
    (
        "kept",
        &[
            "false jump without a condition",
            "ret before a stop",
            "patched, and no store",
        ],
    ),
];

/// The refusals that apply, as the classes name them.
pub fn reasons_name(reasons: &[Refusal]) -> &'static str {
    let numbers = reasons.iter().map(|reason| reason.number().to_string());
    let text = numbers.collect::<Vec<String>>().join("+");
    let all = CLASSES.iter().flat_map(|(_, names)| names.iter());
    match text.as_str() {
        "" => "nothing",
        text => all
            .copied()
            .find(|name| *name == text)
            .expect("a subset that has a name"),
    }
}

fn status_name(status: Status) -> &'static str {
    STATUSES[status.number() as usize - 1]
}

fn origin_name(origin: Origin) -> &'static str {
    ORIGINS[origin as usize]
}

fn size_name(size: usize) -> &'static str {
    match size {
        0 | 1 => "1",
        2..=255 => "2-255",
        256..=4_095 => "256-4095",
        4_096 => "4096",
        4_097..=65_534 => "4097-65534",
        65_535 => "65535",
        _ => "65536",
    }
}

fn budget_name(budget: u64) -> &'static str {
    match budget {
        0 | 1 => "1",
        2..=9 => "2-9",
        10..=99 => "10-99",
        100..=9_999 => "100-9999",
        _ => "10000 or more",
    }
}

/// A call that was compared: where its record comes from, what was given, why
/// it was refused, if it was, and what it left.
pub struct Compared<'a, R> {
    pub origin: Origin,
    pub given: &'a Call<R>,
    pub reasons: &'a [Refusal],
    pub left: &'a Call<R>,
}

impl<R: Counted> Compared<'_, R> {
    fn is_refused(&self) -> bool {
        !self.reasons.is_empty()
    }

    /// What is counted of both engines alike.
    fn count(&self, tally: &mut Tally, refused: &'static str) {
        let headings = &R::HEADINGS;
        tally.count(refused, reasons_name(self.reasons));
        let budget = self.given.budget;
        if self
            .given
            .logs
            .iter()
            .any(|log| (log.len() as u64) < budget)
        {
            tally.count(headings.logs, "shorter");
        }
        if self.is_refused() {
            return;
        }
        tally.count(headings.record, origin_name(self.origin));
        tally.count(headings.given, status_name(self.given.record.status()));
        tally.count(headings.left, status_name(self.left.record.status()));
        self.count_fault_left(tally);
        tally.count(headings.memory, size_name(self.given.memory.len()));
        let outside = self.given.record.next_address() >= self.given.memory.len() as u64;
        tally.count(headings.address, ADDRESSES[usize::from(outside)]);
        tally.count(headings.budget, budget_name(budget));
        let reached = self.given.record.spent() + budget == R::LIMIT;
        tally.count(headings.limit, LIMITS[usize::from(reached)]);
        for log in &self.given.logs {
            let longer = log.len() as u64 > budget;
            let name = if longer {
                "longer"
            } else {
                "as long as the budget"
            };
            tally.count(headings.logs, name);
        }
    }

    /// What a record that the call has stopped says of the fetch; those made by
    /// hand may hold any reason with any status.
    fn count_fault_left(&self, tally: &mut Tally) {
        let running = |record: &R| record.status() == Status::Aok;
        if running(&self.given.record) && !running(&self.left.record) {
            let heading = match self.origin {
                Origin::HandMade => R::HEADINGS.stopped_by_hand,
                _ => R::HEADINGS.stopped,
            };
            tally.count(heading, reason_name(self.left.record.fault().reason));
        }
    }
}

/// The headings under which an engine's calls are counted.
pub struct Headings {
    memory: &'static str,
    address: &'static str,
    limit: &'static str,
    record: &'static str,
    given: &'static str,
    left: &'static str,
    stopped: &'static str,
    stopped_by_hand: &'static str,
    budget: &'static str,
    logs: &'static str,
}

/// A record whose calls are counted.
pub trait Counted: Engine {
    const HEADINGS: Headings;
    /// The heading of runs cut in two and taken apart.
    const RUNS: &'static str;

    fn count(compared: &Compared<Self>, tally: &mut Tally, refused: &'static str);
}

impl Counted for Machine {
    const HEADINGS: Headings = Headings {
        memory: "plain memory",
        address: "plain address given",
        limit: "plain limit",
        record: "plain record",
        given: "plain status given",
        left: "plain status left",
        stopped: "plain stopped for",
        stopped_by_hand: "plain stopped for",
        budget: "plain budget",
        logs: "plain log",
    };
    const RUNS: &'static str = "plain run";

    fn count(compared: &Compared<Machine>, tally: &mut Tally, refused: &'static str) {
        compared.count(tally, refused);
        if cfg!(trial_split) {
            let (given, left) = (&compared.given.record, &compared.left.record);
            seams::count_plain(tally, given, left, compared.given.extent());
        }
    }
}

impl Counted for Pipeline {
    const HEADINGS: Headings = Headings {
        memory: "pipeline memory",
        address: "pipeline address given",
        limit: "pipeline limit",
        record: "pipeline record",
        given: "pipeline status given",
        left: "pipeline status left",
        stopped: "pipeline stopped for",
        stopped_by_hand: "pipeline stopped by hand for",
        budget: "pipeline budget",
        logs: "pipeline logs",
    };
    const RUNS: &'static str = "pipeline run";

    fn count(compared: &Compared<Pipeline>, tally: &mut Tally, refused: &'static str) {
        compared.count(tally, refused);
        settings::count(tally, compared.given);
        compared.count_record(tally);
        if !compared.is_refused() {
            windows::count_call(tally, &compared.given.record, compared.given.extent());
        }
        if cfg!(trial_split) {
            let (given, left) = (&compared.given.record, &compared.left.record);
            seams::count_pipelined(tally, given, left, compared.given.extent());
        }
    }
}

/// The headings of the five places of an instruction in a pipeline record.
const PLACES: [(&str, &str); 5] = [
    ("hand-made in D", "refused for D"),
    ("hand-made in E", "refused for E"),
    ("hand-made in M", "refused for M"),
    ("hand-made in W", "refused for W"),
    ("hand-made kept", "refused for kept"),
];

impl Compared<'_, Pipeline> {
    /// What a pipeline record holds, and what came of it.
    fn count_record(&self, tally: &mut Tally) {
        if *self.reasons == [Refusal::Record] {
            self.count_fault(tally);
        }
        if self.is_refused() {
            return;
        }
        if self.origin == Origin::HandMade {
            self.count_held(tally);
        }
        self.count_charges(tally);
        let record = &self.given.record;
        if record.status == Status::Aok {
            self.count_stops(tally);
            if record.w.is_none_or(|w| w.status == Status::Aok) {
                self.count_controls(tally);
                self.count_additions(tally);
                self.count_fetch_address(tally);
            }
        }
    }

    /// The one fault of a record, where it has no other.
    fn count_fault(&self, tally: &mut Tally) {
        let record = &self.given.record;
        let mut faults = Vec::new();
        for (held, (_, heading)) in record.instructions().iter().zip(PLACES) {
            let found = held.iter().flat_map(faults_of);
            faults.extend(found.map(|fault| (heading, fault)));
        }
        let counts = [
            ("retired", record.retired),
            ("load-use", record.kinds.load_use),
            ("mispredict", record.kinds.mispredict),
            ("return", record.kinds.returns),
            ("patch", record.kinds.patch),
        ];
        let above = counts.iter().filter(|(_, count)| *count > record.cycles);
        faults.extend(above.map(|(name, _)| ("refused for", *name)));
        if record.settings.rule > 2 {
            faults.push(("refused for", "rule"));
        }
        let size = self.given.extent().size;
        if window::check(record.settings.window, size).is_err() {
            faults.push(("refused for", "window"));
        }
        if let [(heading, fault)] = faults[..] {
            tally.count(heading, fault);
        }
    }

    /// What the places of a record made by hand hold.
    fn count_held(&self, tally: &mut Tally) {
        let places = self.given.record.instructions();
        for (held, (heading, _)) in places.iter().zip(PLACES) {
            let name = held.map_or(HELD.len() - 1, |held| usize::from(held.code));
            tally.count(heading, HELD[name]);
        }
    }

    fn count_charges(&self, tally: &mut Tally) {
        let (before, after) = (self.given.record.kinds, self.left.record.kinds);
        let charges = [
            ("load-use", after.load_use > before.load_use),
            ("mispredict", after.mispredict > before.mispredict),
            ("return", after.returns > before.returns),
            ("patch", after.patch > before.patch),
        ];
        for (name, _) in charges.iter().filter(|(_, charged)| *charged) {
            tally.count("charged", name);
        }
        if self.left.record.retired > self.given.record.retired && before == after {
            tally.count("charged", "nothing");
        }
    }

    /// What bears on a stop in the first clocks.
    fn count_stops(&self, tally: &mut Tally) {
        let record = &self.given.record;
        let bad = |held: Option<Instruction>| held.is_some_and(|held| held.status != Status::Aok);
        let [d, e, m, ..] = record.instructions();
        let bad_in_m = record.bad_in_m(self.given.extent());
        let bad_in_w = record.w.is_some_and(|w| w.status != Status::Aok);
        let places = [
            ("D", bad(d)),
            ("E", bad(e)),
            ("M, of its fetch", bad(m)),
            ("M, by its access", bad_in_m && !bad(m)),
            ("W", bad_in_w),
        ];
        for (place, _) in places.iter().filter(|(_, bad)| *bad) {
            tally.count("bad status in", place);
        }
        let Some(kept) = record.kept else { return };
        let store = matches!(kept.instruction.code, RMMOVQ | PUSHQ | CALL);
        if kept.patched && !store && record.w.is_some() {
            tally.count("kept", "patched, and no store");
        }
        if kept.instruction.code == RET && bad_in_w {
            tally.count("kept", "ret before a stop");
        }
        let jump = kept.instruction.code == JXX && kept.instruction.function == 0;
        if jump && !kept.holds && record.w.is_some() {
            tally.count("kept", "false jump without a condition");
        }
    }

    /// The controls of the first clock, which no bad status in W freezes.
    fn count_controls(&self, tally: &mut Tally) {
        let record = &self.given.record;
        let [d, e, m, ..] = record.instructions();
        let holds = |held: Option<Instruction>, code| held.is_some_and(|held| held.code == code);
        let (load_use, mispredicted) = (record.load_use(), record.mispredicted());
        let bad_in_m = record.bad_in_m(self.given.extent());
        let controls = [
            ("load-use", load_use),
            ("misprediction", mispredicted),
            ("ret in D", holds(d, RET)),
            ("ret in E", holds(e, RET)),
            ("ret in M", holds(m, RET)),
            ("load-use and ret in D", load_use && holds(d, RET)),
            ("misprediction and ret in D", mispredicted && holds(d, RET)),
            ("OPq in E before a bad M", bad_in_m && holds(e, OPQ)),
            ("iaddq in E before a bad M", bad_in_m && holds(e, IADDQ)),
        ];
        for (name, _) in controls.iter().filter(|(_, set)| *set) {
            tally.count("control in the first clock", name);
        }
        if !load_use && !mispredicted && !record.returning() && !bad_in_m {
            tally.count("control in the first clock", "none");
        }
    }

    /// What iaddq does in the first clock.
    fn count_additions(&self, tally: &mut Tally) {
        let record = &self.given.record;
        if record.d.is_some_and(|d| d.code == IADDQ) {
            let waits = record.load_use();
            tally.count("iaddq in D", if waits { "load-use" } else { "none" });
        }
        let Some(e) = record.e.filter(|e| e.instruction.code == IADDQ) else {
            return;
        };
        let (constant, own) = (e.instruction.constant as i64, e.instruction.function == 0);
        let seen = [
            ("function 0", own),
            ("another function", !own),
            ("-2^63", constant == i64::MIN),
            ("2^63 - 1", constant == i64::MAX),
            ("overflow", constant.checked_add(e.b as i64).is_none()),
        ];
        for (name, _) in seen.iter().filter(|(_, seen)| *seen) {
            tally.count("iaddq in E", name);
        }
    }

    fn count_fetch_address(&self, tally: &mut Tally) {
        let record = &self.given.record;
        let rule = record.settings.rule;
        let wrongly = |m: &Executed| m.instruction.is_guessed_wrongly(rule, m.holds);
        let jump = record.m.filter(wrongly);
        let returned = record.w.is_some_and(|w| w.instruction.code == RET);
        let name = match jump {
            Some(_) if returned => "jump in M and ret in W",
            Some(jump) if jump.holds => "C of a jump in M",
            Some(_) => "next of a jump in M",
            None if returned => "ret in W",
            None => "predicted",
        };
        tally.count("fetch address", name);
        let call = record.m.filter(|m| m.instruction.code == CALL);
        let own = |held: &Instruction| held.next != held.address.wrapping_add(9);
        if jump.is_some_and(|jump| !jump.holds && own(&jump.instruction)) {
            tally.count("own next address", "of a jump in M");
        }
        if call.is_some_and(|call| own(&call.instruction)) {
            tally.count("own next address", "of a call in M");
        }
    }
}

/// Why refusal 5 meets an instruction.
fn faults_of(held: &Instruction) -> Vec<&'static str> {
    let faults = [
        ("rA", held.ra > 15),
        ("rB", held.rb > 15),
        ("code", held.code > 12),
        ("move", held.code == CMOV && held.function > 6),
        ("jump", held.code == JXX && held.function > 6),
        ("OPq", held.code == OPQ && held.function > 3),
    ];
    let found = faults.iter().filter(|(_, fault)| *fault);
    found.map(|(name, _)| *name).collect()
}
