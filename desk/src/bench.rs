//! `desk bench`: the engine through its host edge against the second program,
//! on the same inputs, in turns, the least time of many.

pub mod instructions;

use crate::{say, Fault};
use desk::engine::{self, Outcome, Replay};
use desk::programs;
use desk::second;
use desk::second::machine::CYCLE_LIMIT;
use std::time::Instant;

/// The engines that are compared.
#[derive(Clone, Copy)]
pub enum Engine {
    Product,
    Second,
}

impl Engine {
    const ALL: [Engine; 2] = [Engine::Product, Engine::Second];

    fn name(self) -> &'static str {
        match self {
            Engine::Product => "product",
            Engine::Second => "second",
        }
    }

    fn replay(self) -> Replay {
        match self {
            Engine::Product => engine::replay,
            Engine::Second => second::replay,
        }
    }
}

/// The programs that they are compared on.
#[derive(Clone, Copy)]
pub enum Program {
    Listing,
    Stores,
}

impl Program {
    const ALL: [Program; 2] = [Program::Listing, Program::Stores];

    fn name(self) -> &'static str {
        match self {
            Program::Listing => "listing",
            Program::Stores => "stores",
        }
    }

    fn title(self) -> &'static str {
        match self {
            Program::Listing => "listing of 004, 400 elements",
            Program::Stores => "loop of stores",
        }
    }

    fn image(self) -> Vec<u8> {
        match self {
            Program::Listing => programs::stretched_004(),
            // Five cycles a turn: more than any budget allows.
            Program::Stores => programs::loop_of_stores(60_000),
        }
    }

    /// Budgets that show how the time grows. The listing halts by itself.
    fn budgets(self) -> &'static [u64] {
        match self {
            Program::Listing => &[300, 600, 1_200, CYCLE_LIMIT],
            Program::Stores => &[1_000, 4_000, 16_000, 64_000, CYCLE_LIMIT],
        }
    }
}

/// One replay without a time, so that its instructions can be counted.
pub struct Once {
    engine: Engine,
    program: Program,
    budget: u64,
}

impl Once {
    /// The replay that the names mean, if they mean one.
    pub fn named(engine: &str, program: &str, budget: u64) -> Option<Once> {
        let named_engine = |one: &&Engine| one.name() == engine;
        let named_program = |one: &&Program| one.name() == program;
        Some(Once {
            engine: *Engine::ALL.iter().find(named_engine)?,
            program: *Program::ALL.iter().find(named_program)?,
            budget,
        })
    }

    pub fn run(&self) -> Result<(), Fault> {
        Place::new(self.program).replay(self.engine, self.budget)?;
        Ok(())
    }
}

/// Where the replays of one program take place.
struct Place {
    image: Vec<u8>,
    memory: Vec<u8>,
}

impl Place {
    fn new(program: Program) -> Place {
        let image = program.image();
        let memory = image.clone();
        Place { image, memory }
    }

    /// One replay from the image; gives its nanoseconds and its cycles.
    fn replay(&mut self, engine: Engine, budget: u64) -> Result<(u64, u64), Fault> {
        self.memory.copy_from_slice(&self.image);
        let (mut registers, mut result) = ([0; 120], [0; 40]);
        let replay = engine.replay();
        let begin = Instant::now();
        let answer = replay(&mut self.memory, &mut registers, &mut result, 0, 4, budget);
        let spent = begin.elapsed().as_nanos() as u64;
        match answer {
            0 => Ok((spent, Outcome::read(&result).cycles)),
            number => Err(Fault::new(Fault::REFUSED, format!("refused ({number})"))),
        }
    }
}

/// The least times of both engines, in nanoseconds, for one budget.
struct Row {
    cycles: u64,
    least: [u64; 2],
}

impl Row {
    /// The engines take turns, so that what else the machine does falls on both.
    fn measure(program: Program, budget: u64) -> Result<Row, Fault> {
        let mut place = Place::new(program);
        let (_, cycles) = place.replay(Engine::Second, budget)?;
        let rounds = 60.max(6_000_000 / cycles);
        let mut least = [u64::MAX; 2];
        for _ in 0..rounds {
            for (best, engine) in least.iter_mut().zip(Engine::ALL) {
                *best = place.replay(engine, budget)?.0.min(*best);
            }
        }
        Ok(Row { cycles, least })
    }

    fn line(&self) -> String {
        let [product, second] = self.least.map(|time| time as f64);
        let cycles = self.cycles as f64;
        format!(
            "{:>9}{:>13.1}{:>13.1}{:>13.2}{:>13.2}{:>8.2}\n",
            self.cycles,
            product / 1e3,
            second / 1e3,
            product / cycles,
            second / cycles,
            product / second
        )
    }
}

/// Shows a table for each program, row by row.
pub fn times() -> Result<(), Fault> {
    say("us for a replay and ns for a cycle, the least of many in turns\n")?;
    for program in Program::ALL {
        say(&format!(
            "\n{}\n{:>9}{:>13}{:>13}{:>13}{:>13}{:>8}\n",
            program.title(),
            "cycles",
            "product us",
            "second us",
            "product ns",
            "second ns",
            "ratio"
        ))?;
        for budget in program.budgets() {
            say(&Row::measure(program, *budget)?.line())?;
        }
    }
    Ok(())
}
