//! The settings of pipeline records, and what turned up of them among the calls
//! that were compared.

use super::tally::{Classes, Tally};
use desk::generate::Call;
use desk::second::letter::{Instruction, Pipeline};
use desk::second::machine::{Refusal, Status, NONE, RSP};
use desk::second::pipeline::Settings;
use desk::second::table::{CALL, MRMOVQ, POPQ, PUSHQ, RMMOVQ};

/// Every setting that is not refused, without a window.
pub const ALL: [Settings; 6] = [
    settings(0, false),
    settings(1, false),
    settings(2, false),
    settings(0, true),
    settings(1, true),
    settings(2, true),
];

const fn settings(rule: u8, late: bool) -> Settings {
    Settings {
        rule,
        late,
        window: None,
    }
}

const RULES: [&str; 7] = ["0", "1", "2", "3", "4", "255", "another"];
const GUESSES: [&str; 4] = [
    "skipped rightly",
    "skipped wrongly",
    "taken rightly",
    "taken wrongly",
];
/// For each rule, conditional jumps in E, in M and kept, and which guesses of
/// them there are.
const BY_RULE: [[&str; 3]; 3] = [
    [
        "jumps in E, rule 0",
        "jumps in M, rule 0",
        "kept jumps, rule 0",
    ],
    [
        "jumps in E, rule 1",
        "jumps in M, rule 1",
        "kept jumps, rule 1",
    ],
    [
        "jumps in E, rule 2",
        "jumps in M, rule 2",
        "kept jumps, rule 2",
    ],
];
const TAKEN: [&str; 2] = [GUESSES[2], GUESSES[3]];
const SKIPPED: [&str; 2] = [GUESSES[0], GUESSES[1]];

/// What a store, or a call, behind a load has of the loaded register.
pub const STORES: [&str; 7] = [
    "rmmovq of it",
    "rmmovq at it",
    "rmmovq of it at it",
    "pushq of it",
    "pushq at it",
    "pushq of it at it",
    "call at it",
];
/// Stores behind loads, in D and E, in E and M, and in W and kept, without late
/// store data and with it.
const BEHIND_LOADS: [[&str; 2]; 3] = [
    ["in D behind a load", "in D behind a load, late"],
    ["in E behind a load", "in E behind a load, late"],
    ["in W behind a load", "in W behind a load, late"],
];
const GIVEN: [&str; 2] = ["rule given", "rule given, late"];

/// Every class that has to occur, under its heading.
pub const CLASSES: &Classes = &[
    (GIVEN[0], &RULES),
    (GIVEN[1], &RULES),
    (BEHIND_LOADS[0][0], &STORES),
    (BEHIND_LOADS[0][1], &STORES),
    (BEHIND_LOADS[1][0], &STORES),
    (BEHIND_LOADS[1][1], &STORES),
    (BEHIND_LOADS[2][0], &STORES),
    (BEHIND_LOADS[2][1], &STORES),
    (
        "rmmovq of rsp in E behind popq of it",
        &["late", "not late"],
    ),
    (
        "refused for the rule",
        &["alone", "and the record", "and another refusal"],
    ),
    (BY_RULE[0][0], &TAKEN),
    (BY_RULE[0][1], &TAKEN),
    (BY_RULE[0][2], &TAKEN),
    (BY_RULE[1][0], &SKIPPED),
    (BY_RULE[1][1], &SKIPPED),
    (BY_RULE[1][2], &SKIPPED),
    (BY_RULE[2][0], &GUESSES),
    (BY_RULE[2][1], &GUESSES),
    (BY_RULE[2][2], &GUESSES),
    ("jumps without a condition, rule", &["0", "1", "2"]),
    (
        "C of a jump by rule 2",
        &[
            "below the next address",
            "the next address",
            "above it",
            "with the top bit",
        ],
    ),
];

/// The name of a rule number.
pub fn rule_name(rule: u8) -> &'static str {
    let name = match rule {
        0..=4 => usize::from(rule),
        255 => 5,
        _ => 6,
    };
    RULES[name]
}

/// Counts the settings of a call of the pipeline, and what its first clock does
/// with them.
pub fn count(tally: &mut Tally, call: &Call<Pipeline>) {
    let record = &call.record;
    let late = usize::from(record.settings.late);
    tally.count(GIVEN[late], rule_name(record.settings.rule));
    let others = Pipeline {
        settings: Settings::default(),
        ..*record
    };
    let (reasons, others) = (reasons(record, call), reasons(&others, call));
    if record.settings.rule > Settings::LAST_RULE {
        let name = match others[..] {
            [] => "alone",
            [Refusal::Record] => "and the record",
            _ => "and another refusal",
        };
        tally.count("refused for the rule", name);
    }
    let stopping = record.w.is_some_and(|w| w.status != Status::Aok);
    if reasons.is_empty() && record.status == Status::Aok {
        let [d, e, m, w, kept] = record.instructions();
        if let (Some(kept), Some(_)) = (record.kept, record.w) {
            count_jump(tally, record, 2, &kept.instruction, kept.holds);
        }
        count_store(tally, BEHIND_LOADS[2][late], w, kept);
        if !stopping {
            count_clock(tally, record);
            count_store(tally, BEHIND_LOADS[0][late], d, e);
            count_store(tally, BEHIND_LOADS[1][late], e, m);
            count_moved_rsp(tally, record.settings.late, e, m);
        }
    }
}

/// What a store, or a call, has of a loaded register; none where it is nothing.
pub fn store_name(loaded: u8, code: u8, (ra, rb): (u8, u8)) -> Option<&'static str> {
    let name = match (code, ra == loaded, rb == loaded, loaded == RSP) {
        _ if loaded == NONE => return None,
        (RMMOVQ, true, false, _) => 0,
        (RMMOVQ, false, true, _) => 1,
        (RMMOVQ, true, true, _) => 2,
        (PUSHQ, true, _, false) => 3,
        (PUSHQ, false, _, true) => 4,
        (PUSHQ, true, _, true) => 5,
        (CALL, _, _, true) => 6,
        _ => return None,
    };
    Some(STORES[name])
}

/// A store that was fetched with AOK, and a load before it.
fn count_store(
    tally: &mut Tally,
    heading: &'static str,
    store: Option<Instruction>,
    load: Option<Instruction>,
) {
    let (Some(store), Some(load)) = (store, load) else {
        return;
    };
    let loads = matches!(load.code, MRMOVQ | POPQ) && store.status == Status::Aok;
    let name = store_name(load.ra, store.code, (store.ra, store.rb));
    if let (Some(name), true) = (name, loads) {
        tally.count(heading, name);
    }
}

/// popq of rsp, which has two words for it, before rmmovq of rsp.
fn count_moved_rsp(
    tally: &mut Tally,
    late: bool,
    store: Option<Instruction>,
    load: Option<Instruction>,
) {
    let names =
        |held: Option<Instruction>, code| held.is_some_and(|h| (h.code, h.ra) == (code, RSP));
    if names(store, RMMOVQ) && names(load, POPQ) {
        let name = if late { "late" } else { "not late" };
        tally.count("rmmovq of rsp in E behind popq of it", name);
    }
}

fn reasons(record: &Pipeline, call: &Call<Pipeline>) -> Vec<Refusal> {
    let logs: Vec<&[u64]> = call.logs.iter().map(Vec::as_slice).collect();
    record.reasons(call.extent().size, call.budget, &logs)
}

/// The jumps in E and M of a record that is clocked.
fn count_clock(tally: &mut Tally, record: &Pipeline) {
    if let Some(e) = record.e {
        let guess = e.instruction.is_guessed_taken(record.settings.rule);
        let outcome = guess != record.mispredicted();
        count_jump(tally, record, 0, &e.instruction, outcome);
    }
    if let Some(m) = record.m {
        count_jump(tally, record, 1, &m.instruction, m.holds);
    }
}

/// A jump in one of the three places.
fn count_jump(
    tally: &mut Tally,
    record: &Pipeline,
    place: usize,
    jump: &Instruction,
    outcome: bool,
) {
    let rule = record.settings.rule;
    if !jump.is_jump() {
        return;
    }
    if jump.function == 0 {
        tally.count("jumps without a condition, rule", rule_name(rule));
        return;
    }
    let guess = jump.is_guessed_taken(rule);
    let name = 2 * usize::from(guess) + usize::from(outcome != guess);
    tally.count(BY_RULE[usize::from(rule)][place], GUESSES[name]);
    if rule == 2 {
        let name = match jump.constant.cmp(&jump.next) {
            std::cmp::Ordering::Less => "below the next address",
            std::cmp::Ordering::Equal => "the next address",
            std::cmp::Ordering::Greater => "above it",
        };
        tally.count("C of a jump by rule 2", name);
        if jump.constant >> 63 == 1 {
            tally.count("C of a jump by rule 2", "with the top bit");
        }
    }
}
