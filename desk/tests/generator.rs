//! The generator is deterministic. Which classes of cases occur is checked
//! where they are compared.

use desk::generate::Generator;

#[test]
fn the_same_seed_gives_the_same_cases() {
    let (mut one, mut other) = (Generator::new(77), Generator::new(77));
    let mut third = Generator::new(78);
    let mut differing = 0;
    for _ in 0..2_000 {
        let case = one.case();
        assert!(case == other.case());
        differing += usize::from(case != third.case());
    }
    assert!(differing > 1_990);
}
