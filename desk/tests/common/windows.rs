//! What turned up around code windows and the stores into them (#113).

use super::seams;
use super::tally::{Classes, Tally};
use desk::second::account::{Account, Kind, Performed};
use desk::second::letter;
use desk::second::machine::{Status, NONE};
use desk::second::memory::Extent;
use desk::second::pipeline::Pipeline;
use desk::second::stages::Instruction;
use desk::second::table::{CALL, IADDQ, OPQ, PUSHQ, RET, RMMOVQ};
use desk::second::window::Window;
use std::ops::Range;

const STORES: [&str; 3] = ["rmmovq", "pushq", "call"];
const WRITTEN: [&str; 4] = [
    "a whole word",
    "from before its first",
    "to behind its end",
    "from before to behind",
];
const SAME_CLOCK: [&str; 8] = [
    "misprediction in E",
    "load-use",
    "load-use with ret in D",
    "ret in D",
    "ret in E",
    "codes set in E",
    "bad status in E",
    "bad status in D",
];

/// Every class of whole runs that has to occur.
pub const CLASSES: &Classes = &[
    ("patched by", &STORES),
    ("window written", &WRITTEN),
    ("store beside the window", &["before it", "behind it"]),
    ("in the clock of a patch", &SAME_CLOCK),
    ("cancelled in E", &["another instruction", "the same"]),
    (
        "patched",
        &[
            "the next instruction by rmmovq",
            "the next instruction by pushq",
            "the target by call",
            "one of the next three",
            "farther away",
            "the same place again",
        ],
    ),
    (
        "behind a patch",
        &["goes on", "HLT", "ADR", "INS", "a failing access"],
    ),
];

/// The same of single calls of the pipeline.
pub const CALL_CLASSES: &Classes = &[
    ("call with a window", &["no", "yes"]),
    ("call patched by", &STORES),
    ("call, window written", &WRITTEN),
    ("call, in the clock of a patch", &SAME_CLOCK),
    (
        "call, store in M into the window",
        &["AOK", "bad status", "an empty window"],
    ),
    ("kept store says patched", &["with a window", "without"]),
];

/// How a word that is written lies to the window.
fn written_name(window: Window, at: u64) -> &'static str {
    let (before, behind) = (at < window.first, at + 8 > window.end);
    match (before, behind) {
        (false, false) => WRITTEN[0],
        (true, false) => WRITTEN[1],
        (false, true) => WRITTEN[2],
        (true, true) => WRITTEN[3],
    }
}

fn store_name(code: u8) -> &'static str {
    match code {
        RMMOVQ => STORES[0],
        PUSHQ => STORES[1],
        _ => STORES[2],
    }
}

/// Counts a clock in which a store wrote into the window, by what stood behind
/// it; `follower` is what the plain engine performs next.
pub fn count_clock(
    tally: &mut Tally,
    before: &Pipeline,
    after: &Pipeline,
    follower: Option<&Performed>,
) {
    let (Some(store), Some(window)) = (after.w, after.settings.window) else {
        return;
    };
    if after.status != Status::Aok || !store.instruction.has_patched() {
        return;
    }
    tally.count("patched by", store_name(store.instruction.code()));
    tally.count("window written", written_name(window, store.result));
    for name in given_way(before) {
        tally.count("in the clock of a patch", name);
    }
    if let (Some(e), Some(follower)) = (before.e.map(|e| e.instruction), follower) {
        let performed = follower.parts.map(|parts| (parts.code, parts.function));
        let same = performed == Some((e.code(), e.function())) && !e.is_bad();
        let name = ["another instruction", "the same"][usize::from(same)];
        if e.address() == follower.address {
            tally.count("cancelled in E", name);
        }
    }
}

/// What gives way to a patch in a clock.
fn given_way(before: &Pipeline) -> Vec<&'static str> {
    let [d, e] = [
        before.d.map(|d| d.instruction),
        before.e.map(|e| e.instruction),
    ];
    let code = |held: Option<Instruction>| held.map_or(0xff, |held| held.code());
    let bad = |held: Option<Instruction>| held.is_some_and(|held| held.is_bad());
    let loaded = e.map_or(NONE, |e| e.loaded_target());
    let waits = d.is_some_and(|d| d.waits_for(loaded, before.settings.late));
    let decided = e.map(|e| e.decided(before.codes.condition(e.function())));
    let seen = [
        decided.is_some_and(|jump| jump.is_guessed_wrongly()),
        waits,
        waits && code(d) == RET,
        code(d) == RET,
        code(e) == RET,
        matches!(code(e), OPQ | IADDQ),
        bad(e),
        bad(d),
    ];
    let named = SAME_CLOCK.into_iter().zip(seen);
    named
        .filter(|(_, seen)| *seen)
        .map(|(name, _)| name)
        .collect()
}

fn meet(one: &Range<u64>, other: &Range<u64>) -> bool {
    one.start.max(other.start) < one.end.min(other.end)
}

/// Counts the stores of a history by what they wrote into.
pub fn count_history(tally: &mut Tally, account: &Account, window: Window) {
    let all = &account.performed;
    for (place, store) in all.iter().enumerate() {
        let Some(next) = all.get(place + 1).filter(|_| !store.written.is_empty()) else {
            continue;
        };
        if next.charge != Some(Kind::Patch) {
            count_beside(tally, &store.written, window);
            continue;
        }
        let code = store.parts.map_or(0, |parts| parts.code);
        let into_next = meet(&store.written, &next.own_bytes);
        let near = all[place + 1..].iter().take(3);
        let into_near = near
            .into_iter()
            .any(|one| meet(&store.written, &one.own_bytes));
        let seen = [
            into_next && code == RMMOVQ,
            into_next && code == PUSHQ,
            into_next && code == CALL,
            into_near,
            !into_near,
            all[..place].iter().any(|one| one.written == store.written),
        ];
        let names = CLASSES[5].1;
        for (name, _) in names.iter().zip(seen).filter(|(_, seen)| *seen) {
            tally.count("patched", name);
        }
        let last = place + 2 == all.len() && account.stopped;
        tally.count("behind a patch", stop_name(last.then_some(next)));
    }
}

/// A store close to the window that writes no byte of it.
fn count_beside(tally: &mut Tally, written: &Range<u64>, window: Window) {
    if window.first < window.end {
        if written.end == window.first {
            tally.count("store beside the window", "before it");
        }
        if written.start == window.end {
            tally.count("store beside the window", "behind it");
        }
    }
}

/// How the follower of a patch ends, if it is the stopping one.
fn stop_name(stopping: Option<&Performed>) -> &'static str {
    match stopping.map(|one| (one.parts, one.status)) {
        None => "goes on",
        Some((Some(_), _)) => "a failing access",
        Some((None, Status::Hlt)) => "HLT",
        Some((None, Status::Ins)) => "INS",
        Some((None, _)) => "ADR",
    }
}

/// Counts a call of the pipeline by its window and by its first clock.
pub fn count_call(tally: &mut Tally, record: &letter::Pipeline, memory: Extent) {
    let window = record.settings.window;
    let name = ["no", "yes"][usize::from(window.is_some())];
    tally.count("call with a window", name);
    if record.status != Status::Aok {
        return;
    }
    if let (Some(kept), Some(_)) = (record.kept.filter(|kept| kept.patched), record.w) {
        if matches!(kept.instruction.code, RMMOVQ | PUSHQ | CALL) {
            let name = ["without", "with a window"][usize::from(window.is_some())];
            tally.count("kept store says patched", name);
        }
    }
    if record.w.is_some_and(|w| w.status != Status::Aok) {
        return;
    }
    if let (Some(m), Some(window)) = (record.m, window) {
        count_call_store(tally, record, &m, (memory, window));
    }
}

/// Counts a store in M whose word meets the window.
fn count_call_store(
    tally: &mut Tally,
    record: &letter::Pipeline,
    m: &letter::Executed,
    (memory, window): (Extent, Window),
) {
    let inside = m
        .result
        .checked_add(8)
        .is_some_and(|end| end <= memory.size);
    if !matches!(m.instruction.code, RMMOVQ | PUSHQ | CALL) || !inside {
        return;
    }
    let heading = "call, store in M into the window";
    let meets = meet(&(m.result..m.result + 8), &(window.first..window.end));
    if record.patching(memory).is_some() {
        tally.count(heading, "AOK");
        tally.count("call patched by", store_name(m.instruction.code));
        tally.count("call, window written", written_name(window, m.result));
        count_call_clock(tally, record);
    } else if window.first == window.end && (m.result..m.result + 8).contains(&window.first) {
        tally.count(heading, "an empty window");
    } else if meets && m.result < memory.seam {
        tally.count(seams::PATCHED_PROGRAM, seams::PROGRAM);
    } else if meets {
        tally.count(heading, "bad status");
    }
}

/// What gives way to a patch in the first clock of a call.
fn count_call_clock(tally: &mut Tally, record: &letter::Pipeline) {
    let [d, e, ..] = record.instructions();
    let code = |held: Option<letter::Instruction>, code| held.is_some_and(|h| h.code == code);
    let bad = |held: Option<letter::Instruction>| held.is_some_and(|h| h.status != Status::Aok);
    let seen = [
        record.mispredicted(),
        record.load_use(),
        record.load_use() && code(d, RET),
        code(d, RET),
        code(e, RET),
        code(e, OPQ) || code(e, IADDQ),
        bad(e),
        bad(d),
    ];
    for (name, _) in SAME_CLOCK.iter().zip(seen).filter(|(_, seen)| *seen) {
        tally.count("call, in the clock of a patch", name);
    }
}
