//! `compare`: random sequences, or one transcript.
//!
//!     compare random [SEQUENCES [FIRST-SEED [CALLS]]]
//!     compare all [SEQUENCES [FIRST-SEED [CALLS]]]        (also what the crate cannot be given, without it)
//!     compare single [SEQUENCES [FIRST-SEED [CALLS]]]     (single calls alone)
//!     compare replay FILE        (the transcript again, answered by the model, or by the reference if it is there)

use compare::coverage::Coverage;
use compare::generate::{self, Limits};
use compare::party::Party;
use compare::{stored, text};
use std::process::ExitCode;

fn main() -> ExitCode {
    let args: Vec<String> = std::env::args().skip(1).collect();
    let args: Vec<&str> = args.iter().map(String::as_str).collect();
    match args.as_slice() {
        ["random", rest @ ..] => random(rest, Limits::CRATE),
        ["all", rest @ ..] => random(rest, Limits::ALL),
        ["single", rest @ ..] => random(rest, Limits::SINGLE),
        ["replay", file] => replay(file),
        _ => {
            eprintln!(
                "usage: compare random|all|single [SEQUENCES [FIRST-SEED [CALLS]]] | compare replay FILE"
            );
            ExitCode::FAILURE
        }
    }
}

fn random(args: &[&str], limits: Limits) -> ExitCode {
    let number = |place: usize, default: u64| {
        args.get(place)
            .map_or(default, |word| word.parse().expect("a number"))
    };
    let (sequences, first, calls) = (number(0, 2000), number(1, 1), number(2, 60));
    if !cfg!(any(feature = "reference", feature = "library")) {
        eprintln!("built without reference and library: nothing to compare with");
        return ExitCode::FAILURE;
    }
    let mut coverage = Coverage::default();
    for seed in first..first + sequences {
        if let Err(text) = generate::sequence(seed, calls as usize, limits, &mut coverage) {
            print!("{text}");
            return ExitCode::FAILURE;
        }
    }
    println!(
        "{sequences} sequences from seed {first} agree: {}",
        coverage.summary()
    );
    ExitCode::SUCCESS
}

fn replay(file: &str) -> ExitCode {
    let text = std::fs::read_to_string(file).expect("the file is read");
    let sequence = text::read::sequence(&text).expect("a transcript");
    #[cfg(feature = "reference")]
    let mut party: Box<dyn Party> = Box::new(reference::Reference::setup(&sequence.setup, true));
    #[cfg(not(feature = "reference"))]
    let mut party: Box<dyn Party> =
        Box::new(model::Model::setup(&sequence.setup).expect("a setup"));
    match stored::replay(&text, &mut *party) {
        Ok(out) => {
            print!("{out}");
            ExitCode::SUCCESS
        }
        Err(error) => {
            eprintln!("{error}");
            ExitCode::FAILURE
        }
    }
}
