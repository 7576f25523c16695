//! `twin stress [SEED [ROUNDS [INTERVAL]]]` and `twin measure WORKLOAD REPLICAS PLACES COUNT`.

use std::io::{self, BufWriter};
use std::process::ExitCode;

use twin::{measure, stress};

const USAGE: &str = "twin stress [SEED [ROUNDS [INTERVAL]]]\ntwin measure WORKLOAD REPLICAS PLACES COUNT";

enum Use {
    Stress { seed: u64, rounds: u64, interval: u64 },
    Measure { sum: u64 },
}

/// The decimal numbers of a stress run, with what holds for those left out.
fn stress_numbers(words: &[String]) -> Option<[u64; 3]> {
    let mut numbers = [1, 64, 8];
    for (number, word) in numbers.get_mut(..words.len())?.iter_mut().zip(words) {
        *number = word.parse().ok()?;
    }
    Some(numbers)
}

fn understood(words: &[String]) -> Option<Use> {
    let (verb, words) = words.split_first()?;
    match (verb.as_str(), words) {
        ("stress", words) => {
            let [seed, rounds, interval] = stress_numbers(words)?;
            Some(Use::Stress { seed, rounds, interval })
        }
        ("measure", [workload, replicas, places, count]) => {
            let sum = measure::run(workload, replicas.parse().ok()?, places.parse().ok()?, count.parse().ok()?)?;
            Some(Use::Measure { sum })
        }
        _ => None,
    }
}

fn main() -> ExitCode {
    let words: Vec<String> = std::env::args().skip(1).collect();
    match understood(&words) {
        Some(Use::Stress { seed, rounds, interval }) => {
            let mut out = BufWriter::new(io::stdout().lock());
            match stress::run(seed, rounds, interval, &mut out) {
                Ok(()) => ExitCode::SUCCESS,
                Err(_) => ExitCode::FAILURE,
            }
        }
        Some(Use::Measure { sum }) => {
            println!("{sum}");
            ExitCode::SUCCESS
        }
        None => {
            eprintln!("{USAGE}");
            ExitCode::from(2)
        }
    }
}
