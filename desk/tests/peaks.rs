//! #114: the exported days against the second program's, word for word.

use desk::engine;
use desk::generate::Random;
use desk::second::peaks::{day, Day};
use desk::second::replay::write_words;

const DAYS: usize = 250_000;

/// What is asked of a memory.
struct Asked {
    memory: Vec<u8>,
    table: u64,
    length: u64,
    filed: u64,
}

/// A word that is good or failed, often one that was there before.
fn sample(random: &mut Random) -> u64 {
    match random.below(8) {
        0..=3 => random.below(4),
        4 => (1 << 32) - 1 - random.below(2),
        5 => (1 << 32) + random.below(2),
        6 => random.word(),
        _ => random.below(1 << 32),
    }
}

/// Mostly a table and a peak that are inside, or end with memory, or are just
/// outside; now and then anything.
fn asked(random: &mut Random) -> Asked {
    let words = match random.below(50) {
        0 => 1_441 + random.below(10),
        1..=5 => random.below(200),
        _ => random.below(12),
    };
    let odd = random.below(8) as usize;
    let mut memory = random.bytes(odd);
    let failed = random.chance(1, 6);
    for _ in 0..words {
        let word = match failed {
            true => sample(random) | 1 << (32 + random.below(32)),
            false => sample(random),
        };
        memory.extend(word.to_le_bytes());
    }
    let size = memory.len() as u64;
    let near = |random: &mut Random, end: u64| match random.below(20) {
        0 => random.word(),
        1 => u64::MAX - random.below(16),
        2 | 3 => end.wrapping_add(random.below(3)),
        _ => size % 8 + 8 * random.below(words / 4 + 1),
    };
    let length = match random.below(30) {
        0 => 0,
        1 => 1_439 + random.below(4),
        2 => random.word(),
        _ => 1 + random.below(words + 1),
    };
    Asked {
        table: near(random, size.wrapping_sub(length.wrapping_mul(8))),
        filed: near(random, size.wrapping_sub(8)),
        memory,
        length,
    }
}

/// The exported day, or its refusal, which has to leave the block as it was.
fn exported(asked: &Asked) -> Result<[u8; 56], u64> {
    let mut block = [0xa5; 56];
    let Asked {
        memory,
        table,
        length,
        filed,
    } = asked;
    match engine::peaks(memory, &mut block, *table, *length, *filed) {
        0 => Ok(block),
        number => {
            assert_eq!(block, [0xa5; 56], "a refusal changed the block");
            Err(number)
        }
    }
}

/// Whether the largest good sample stands in the table twice.
fn tied(asked: &Asked, day: &Day) -> bool {
    let from = asked.table as usize;
    let table = &asked.memory[from..from + 8 * asked.length as usize];
    let peak = day.raw.map(|raw| raw.peak.to_le_bytes());
    let equal = table
        .chunks_exact(8)
        .filter(|word| peak.is_some_and(|peak| *word == peak));
    equal.count() > 1
}

#[test]
fn days_agree_with_the_second_program() {
    let mut random = Random::new(114);
    let (mut compared, mut refused, mut ties) = ([0_u32; 5], [0_u32; 4], 0);
    for round in 0..DAYS {
        let asked = asked(&mut random);
        let answer = day(&asked.memory, asked.table, asked.length, asked.filed);
        match &answer {
            Ok(day) => {
                compared[day.words()[6] as usize] += 1;
                ties += u32::from(tied(&asked, day));
            }
            Err(number) => refused[*number as usize] += 1,
        }
        let words = answer.map(|day| {
            let mut block = [0; 56];
            write_words(&mut block, &day.words());
            block
        });
        assert_eq!(exported(&asked), words, "round {round}");
    }
    let [none, below, at, above, cannot] = compared;
    println!("{DAYS} days compared, word for word:");
    println!("below {below}, at {at}, above {above}, cannot be compared {cannot}");
    println!("without a good sample {none}, with a tie {ties}");
    println!(
        "refused 1: {}, 2: {}, 3: {}",
        refused[1], refused[2], refused[3]
    );
    let counts = [none, below, at, above, cannot, ties];
    assert!(counts
        .iter()
        .chain(&refused[1..])
        .all(|count| *count > 1_000));
}

#[test]
fn a_block_of_another_length_is_refused_last() {
    let memory = [1; 24];
    for size in [0, 1, 48, 55, 57, 64] {
        let mut block = vec![7; size];
        for (length, filed, number) in [(0, 99, 1), (9, 99, 2), (2, 17, 3), (2, 16, 4)] {
            let answer = engine::peaks(&memory, &mut block, 0, length, filed);
            assert_eq!(answer, number, "{size} bytes");
            assert_eq!(block, vec![7; size], "a refusal changed the block");
        }
    }
}
