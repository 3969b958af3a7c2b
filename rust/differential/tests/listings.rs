//! Random inputs to the proved listing program.

use differential::bytes::hex;
use differential::programs::{listing_fault, listing_input, listing_program};
use differential::settings::{seed, tell, times};
use differential::Random;

#[test]
fn random_inputs_are_listed_the_same() {
    let program = listing_program();
    if !program.exists() {
        let place = program.display();
        tell(&format!(
            "SKIPPED: no listing program at {place}; `rt run --cpu x86-64` in crates/listing builds it"
        ));
        return;
    }
    let mut random = Random::new(seed());
    let runs = 600 * times();
    for _ in 0..runs {
        let input = listing_input(&mut random);
        if let Some(fault) = listing_fault(&program, &input) {
            let input = hex(&input);
            panic!("{fault}\nagain, in rust/: echo 'listing {input}' | cargo run --bin replay");
        }
    }
    tell(&format!("listings: seed {}, {runs} inputs", seed()));
}
