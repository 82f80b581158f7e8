//! #104: the exported encoder against the second program's, byte for byte.

use desk::engine;
use desk::generate::Random;
use desk::second::encoding::{exported, Asked};

const INSTRUCTIONS: usize = 500_000;

/// Mostly an instruction that is one, or just not.
fn asked(random: &mut Random) -> Asked {
    let near = |random: &mut Random, most: u64| match random.below(40) {
        0 => random.word(),
        1 => 256 + random.below(16),
        _ => random.below(most),
    };
    Asked {
        code: near(random, 15),
        function: match random.chance(2, 3) {
            true => 0,
            false => near(random, 9),
        },
        ra: near(random, 16),
        rb: near(random, 16),
        constant: match random.chance(1, 2) {
            true => random.word(),
            false => random.below(300),
        },
    }
}

#[test]
fn encodings_agree_with_the_second_program() {
    let mut random = Random::new(104);
    let (mut answers, mut codes) = ([0_u32; 9], [0_u32; 13]);
    for round in 0..INSTRUCTIONS {
        let asked = asked(&mut random);
        let lent = random.below(13) as usize;
        let told = match random.below(20) {
            0 => random.below(20) as usize,
            _ => 8,
        };
        let (mut bytes, mut length) = (random.bytes(lent), random.bytes(told));
        let (mut bytes2, mut length2) = (bytes.clone(), length.clone());
        let number = engine::encode(&mut bytes, &mut length, asked);
        assert_eq!(
            number,
            exported(&mut bytes2, &mut length2, asked),
            "round {round}: {asked:?}"
        );
        assert_eq!(
            (bytes, length),
            (bytes2, length2),
            "round {round}: {asked:?}"
        );
        answers[number as usize] += 1;
        if number == 0 {
            codes[asked.code as usize] += 1;
        }
    }
    println!("{INSTRUCTIONS} instructions encoded, byte for byte; by code {codes:?}");
    println!(
        "encoded {}, refused 4: {}, 5: {}, 8: {}",
        answers[0], answers[4], answers[5], answers[8]
    );
    assert!(codes.iter().all(|count| *count > 1_000));
    assert!([0, 4, 5, 8].iter().all(|number| answers[*number] > 1_000));
}
