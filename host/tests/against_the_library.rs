//! One million random calls to the proved library and to the model: no difference, and every call gives every
//! number that it can give. The environment variable CUONGPHEMI_SEED takes another seed.

use cuongphemi_host::compare::{Comparison, SEED};
use cuongphemi_host::library::Library;
use cuongphemi_host::random::Random;

const CALLS: u64 = 1_000_000;

fn seed() -> u64 {
    let seed = match std::env::var("CUONGPHEMI_SEED") {
        Ok(text) => text.parse().expect("CUONGPHEMI_SEED is a number in decimal"),
        Err(_) => SEED,
    };
    println!("seed {seed}");
    seed
}

#[test]
fn library_and_model_do_the_same() {
    let seed = seed();
    let mut comparison = Comparison::new(seed);
    comparison.run(CALLS);
    println!("{}", comparison.tally);
    assert_eq!(comparison.tally.missing(), Vec::<String>::new(), "seed {seed}");
}

#[test]
fn interrupt_code_changes_its_own_bits() {
    let mut random = Random::new(seed());
    for _ in 0..100_000 {
        let (flags, priority, word) = (random.word(), random.word(), random.odd_word());
        let after = |step: fn(&Library, &mut [u32; 2], u32)| {
            let mut status = [flags, priority];
            step(&Library, &mut status, word);
            status
        };
        assert_eq!(after(Library::flags_raise), [flags | word, priority]);
        assert_eq!(after(Library::flags_clear), [flags & !word, priority]);
        assert_eq!(after(Library::priority_put), [flags, word]);
        let mut status = [flags, priority];
        assert_eq!((Library.flags_take(&mut status), status), (flags, [0, priority]));
    }
}
