//! A second implementation of document 01 with T-01 to T-07, and the proved library compared with it. Runs from the top of the repository.
//! Arguments: the number of random calls and the seed, both with a default.

mod aes;
mod card;
mod compare;
mod differential;
mod door;
mod fault;
mod generate;
mod keys;
mod line;
mod loads;
mod meddle;
mod nist;
mod outcomes;
mod padding;
#[path = "../conform/plaid.rs"]
mod plaid;
mod published;
mod random;
mod reader;
mod sha256;
mod shrink;
mod side;
mod tally;
mod transcript;
mod tries;
mod work;

use tally::Tally;

const CALLS: u64 = 200_000;
const SEED: u64 = 25185;

/// The argument at this place, the default without one; any other text ends the program.
fn argument(place: usize, default: u64) -> u64 {
    let parsed = std::env::args().nth(place).map_or(Ok(default), |text| text.parse());
    parsed.unwrap_or_else(|_| {
        eprintln!("use: second [calls] [seed]");
        std::process::exit(2)
    })
}

fn main() {
    let (calls, seed) = (argument(1, CALLS) as usize, argument(2, SEED));
    let mut all = Tally::default();
    all.add(nist::run());
    all.add(published::run());
    all.add(differential::library(calls, seed));
    all.add(tries::library(seed));
    all.add(differential::self_test(calls, seed));
    all.add(tries::self_test(seed));
    println!("{} passed, {} failed", all.passed, all.failed);
    std::process::exit(i32::from(all.failed > 0));
}
