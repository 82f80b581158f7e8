//! `desk bench --instructions`: instructions a cycle, which are the same again
//! at every count where times are not.

use super::{Engine, Program};
use crate::{say, Fault};
use std::process::Command;

/// Two budgets of a program. The instructions between them are those of whole
/// cycles alone: what comes before and after the run is in both counts.
fn budgets(program: Program) -> (u64, u64) {
    match program {
        Program::Listing => (400, 2_400),
        Program::Stores => (2_000, 12_000),
    }
}

/// Shows the instructions a cycle of both engines on both programs.
pub fn count() -> Result<(), Fault> {
    say("instructions a cycle, counted by valgrind's callgrind\n")?;
    for program in Program::ALL {
        let product = each_cycle(Engine::Product, program)?;
        let second = each_cycle(Engine::Second, program)?;
        say(&format!(
            "{:<30}product {product:>7.1}   second {second:>7.1}   ratio {:.2}\n",
            program.title(),
            product / second
        ))?;
    }
    Ok(())
}

fn each_cycle(engine: Engine, program: Program) -> Result<f64, Fault> {
    let (few, many) = budgets(program);
    let between = collected(engine, program, many)? - collected(engine, program, few)?;
    Ok(between / (many - few) as f64)
}

/// The instructions of one replay in a process of its own, from its start to
/// its end.
fn collected(engine: Engine, program: Program, budget: u64) -> Result<f64, Fault> {
    let fault = |why: String| Fault::new(Fault::VALGRIND, format!("valgrind: {why}"));
    let own = std::env::current_exe().map_err(|error| fault(error.to_string()))?;
    let output = Command::new("valgrind")
        .args(["--tool=callgrind", "--callgrind-out-file=/dev/null"])
        .arg(own)
        .args(["bench", "--once", engine.name(), program.name()])
        .arg(budget.to_string())
        .output()
        .map_err(|error| fault(error.to_string()))?;
    let said = String::from_utf8_lossy(&output.stderr);
    let number = said
        .lines()
        .find_map(|line| line.split_once("Collected : "))
        .and_then(|(_, number)| number.trim().parse().ok());
    number.ok_or_else(|| fault(format!("no count in what it said:\n{said}")))
}
