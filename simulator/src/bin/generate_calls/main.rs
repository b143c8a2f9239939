//! Writes a random list of library calls.
//!
//!     generate_calls [--yards] SEED [CALLS]
//!
//! The same seed gives the same list. CALLS is about how many calls it makes;
//! without it the seed decides. A list has benches that follow each other on the same
//! memory; with `--yards` it has queues that stand on it beside each other.

use std::io::Write;
use std::process::ExitCode;

mod benches;
mod draws;
mod yards;

fn main() -> ExitCode {
    let mut words: Vec<String> = std::env::args().skip(1).collect();
    let yards = words.first().is_some_and(|word| word == "--yards");
    if yards {
        words.remove(0);
    }
    let values: Vec<Option<u64>> = words.iter().map(|text| text.parse().ok()).collect();
    let (seed, calls) = match values[..] {
        [Some(seed)] => (seed, None),
        [Some(seed), Some(calls)] => (seed, Some(calls)),
        _ => {
            eprintln!("usage: generate_calls [--yards] SEED [CALLS]");
            return ExitCode::from(64);
        }
    };
    let text = if yards { yards::list(seed, calls) } else { benches::list(seed, calls) };
    if let Err(error) = std::io::stdout().write_all(&text) {
        eprintln!("generate_calls: the list can't be written: {error}");
        return ExitCode::FAILURE;
    }
    ExitCode::SUCCESS
}
