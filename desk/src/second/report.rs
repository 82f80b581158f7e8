//! The program's output text.

use super::arithmetic::Codes;
use super::machine::{Refusal, Registers, PROGRAM_LIMIT, REGISTER_NAMES};
use super::pipeline::{Pipeline, Settings};

/// The program's cycle budget.
pub const PROGRAM_BUDGET: u64 = 4_000;

/// The text the program writes for a raw image: registers 0, codes ZF=1,
/// start 0, 4,000 cycles.
pub fn y86run(image: &[u8]) -> String {
    match program_run(&mut image.to_vec()) {
        Ok(machine) => report(&machine),
        Err(refusal) => format!("y86run\t1\nrefused\t{}\n", refusal.number()),
    }
}

/// The program's run over an image, of which it holds at most 4,096 bytes.
pub fn program_run(memory: &mut [u8]) -> Result<Pipeline, Refusal> {
    if memory.len() > PROGRAM_LIMIT {
        return Err(Refusal::Memory);
    }
    let codes = Codes::new(true, false, false);
    let size = memory.len() as u64;
    let settings = Settings::default();
    let mut machine = Pipeline::fresh(size, Registers::default(), codes, 0, settings)?;
    machine.run(memory, PROGRAM_BUDGET, None)?;
    Ok(machine)
}

fn report(machine: &Pipeline) -> String {
    let mut text = format!("y86run\t1\nstat\t{}\n", machine.status.name());
    let counts = [
        ("last", machine.last),
        ("codes", machine.codes.number()),
        ("retired", machine.retired),
        ("cycles", machine.cycles),
        ("loaduse", machine.kinds.load_use),
        ("mispredict", machine.kinds.mispredict),
        ("return", machine.kinds.returns),
    ];
    for (name, value) in counts {
        text += &format!("{name}\t{value}\n");
    }
    for (name, value) in REGISTER_NAMES.iter().zip(machine.registers.0) {
        if value != 0 {
            text += &format!("reg\t{name}\t{value}\n");
        }
    }
    text
}
