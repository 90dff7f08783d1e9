//! Random cases, each made from its own seed.
//!
//! DBM0_CASES is the number of cases of each kind, and DBM0_SEED is the first seed. A case that fails prints its seed. To repeat it, set
//! DBM0_SEED to it and DBM0_CASES to 1.

use reference::generate::Random;

fn from_environment(name: &str, default: u64) -> u64 {
    match std::env::var(name) {
        Ok(text) => text
            .parse()
            .unwrap_or_else(|_| panic!("{name} is not a number: {text}")),
        Err(_) => default,
    }
}

/// Runs a comparison for each seed.
pub fn for_seeds(usual: u64, compare: impl Fn(&mut Random) -> Result<(), String>) {
    let first = from_environment("DBM0_SEED", 1);
    for seed in first..first.saturating_add(from_environment("DBM0_CASES", usual)) {
        if let Err(what) = compare(&mut Random::new(seed)) {
            panic!("seed {seed}: {what}");
        }
    }
}
