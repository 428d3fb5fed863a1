//! Compares the proved library with the reference, call by call.
//!
//! The other modes compare faulty copies of the reference, to show that the
//! comparison finds faults. Status 0 is success, 1 a mismatch or a mutant
//! that survived, 2 a command line that means nothing here.

mod chart_mutants;
mod charts;
mod claim_mutants;
mod claims;
mod compare;
mod fixed;
mod mutants;
mod product_mutants;
mod products;
mod random;
mod rest_mutants;
mod rests;

use std::process::ExitCode;

use inputs::rng::Rng;
use reference::entries::Tool;

use compare::{Comparison, Mismatch, Tally};
use mutants::{faultless, mutants};

const DEFAULT_SEED: u64 = 1;
/// Less than 20 seconds.
const DEFAULT_ROUNDS: u64 = 10_000;
/// A mutant that this many rounds do not find has survived.
const DEFAULT_MUTANT_ROUNDS: u64 = 500;

const USAGE: &str = "usage: differential [SEED [ROUNDS]]
       differential --random [SEED [ROUNDS]]
       differential --mutants [SEED [ROUNDS]]
       differential --mutant NAME [SEED [ROUNDS]]";

/// What is compared with the reference.
enum Mode {
    Library,
    EveryMutant,
    OneMutant(String),
}

/// Whether the fixed inputs are compared, where the random ones begin, and how
/// many rounds there are.
struct Length {
    fixed: bool,
    seed: u64,
    rounds: u64,
}

fn main() -> ExitCode {
    let arguments: Vec<String> = std::env::args().skip(1).collect();
    match parse(&arguments) {
        Some((Mode::Library, length)) => compare_library(&length),
        Some((Mode::EveryMutant, length)) => compare_every_mutant(&length),
        Some((Mode::OneMutant(name), length)) => compare_one_mutant(&name, &length),
        None => {
            eprintln!("{USAGE}");
            ExitCode::from(2)
        }
    }
}

fn parse(arguments: &[String]) -> Option<(Mode, Length)> {
    let mut length = Length {
        fixed: true,
        seed: DEFAULT_SEED,
        rounds: DEFAULT_MUTANT_ROUNDS,
    };
    let (mode, numbers) = match arguments {
        [first, rest @ ..] if first == "--mutants" => (Mode::EveryMutant, rest),
        [first, name, rest @ ..] if first == "--mutant" => (Mode::OneMutant(name.clone()), rest),
        rest => {
            length.rounds = DEFAULT_ROUNDS;
            length.fixed = rest.first().is_none_or(|first| first != "--random");
            (Mode::Library, &rest[usize::from(!length.fixed)..])
        }
    };
    if let [seed, ..] = numbers {
        length.seed = seed.parse().ok()?;
    }
    if let [_, rounds, ..] = numbers {
        length.rounds = rounds.parse().ok()?;
    }
    (numbers.len() <= 2).then_some((mode, length))
}

/// A mismatch with the place where it was found.
struct Found {
    place: String,
    mismatch: Mismatch,
}

impl Found {
    fn in_one_line(&self) -> String {
        format!("{}: {}", self.place, self.mismatch.summary)
    }

    fn whole(&self) -> String {
        format!("{}\n{}", self.in_one_line(), self.mismatch.inputs)
    }
}

/// A part of the comparison: the entries that take a case, those that take a
/// claim, the one that takes a chart, or those that take a chart and a claim.
#[derive(Clone, Copy)]
pub enum Part {
    Cases,
    Claims,
    Charts,
    Products,
}

impl Part {
    fn compare_fixed(self, comparison: &mut Comparison) -> Result<(), Mismatch> {
        match self {
            Part::Cases => fixed::compare_all(comparison),
            Part::Claims => claims::compare_all(comparison),
            Part::Charts => charts::compare_all(comparison),
            Part::Products => products::compare_all(comparison),
        }
    }

    fn compare_round(self, comparison: &mut Comparison, rng: &mut Rng) -> Result<(), Mismatch> {
        match self {
            Part::Cases => random::compare_round(comparison, rng),
            Part::Claims => claims::compare_round(comparison, rng),
            Part::Charts => charts::compare_round(comparison, rng),
            Part::Products => products::compare_round(comparison, rng),
        }
    }
}

/// All parts.
const WHOLE: [Part; 4] = [Part::Cases, Part::Claims, Part::Charts, Part::Products];

/// Compares a tool by these parts; returns how many calls came out in which way.
fn compare(tool: &dyn Tool, parts: &[Part], length: &Length) -> Result<Tally, Found> {
    let mut comparison = Comparison::new(tool);
    let found = |place: String| |mismatch| Found { place, mismatch };
    for part in parts {
        if length.fixed {
            let place = "fixed inputs".to_owned();
            part.compare_fixed(&mut comparison).map_err(found(place))?;
        }
        for round in 0..length.rounds {
            let mut rng = Rng::for_round(length.seed, round);
            let place = format!("seed {} round {round}", length.seed);
            part.compare_round(&mut comparison, &mut rng)
                .map_err(found(place))?;
        }
    }
    Ok(comparison.tally)
}

/// Compares a tool that should be right.
fn compare_right(name: &str, tool: &dyn Tool, length: &Length) -> ExitCode {
    match compare(tool, &WHOLE, length) {
        Ok(tally) => {
            println!("{name}: no mismatch in {} calls\n{tally}", tally.calls());
            ExitCode::SUCCESS
        }
        Err(found) => {
            println!("{name}: MISMATCH at {}", found.whole());
            ExitCode::FAILURE
        }
    }
}

#[cfg(library)]
fn compare_library(length: &Length) -> ExitCode {
    let fixed = if length.fixed { "fixed inputs, " } else { "" };
    println!("{fixed}seed {}, {} rounds", length.seed, length.rounds);
    compare_right("library", &wrapper::Library, length)
}

#[cfg(not(library))]
fn compare_library(_length: &Length) -> ExitCode {
    eprintln!("this program was built without the library and can compare only mutants");
    ExitCode::from(2)
}

/// Every mutant must be found, and a tool without fault must not.
fn compare_every_mutant(length: &Length) -> ExitCode {
    let mut result = compare_right("no fault", &faultless(), length);
    let mut caught = 0;
    for mutant in mutants() {
        match compare(&mutant, &[mutant.part], length) {
            Ok(tally) => {
                println!("{}: SURVIVED {} calls", mutant.name, tally.calls());
                result = ExitCode::FAILURE;
            }
            Err(found) => {
                println!("{}: caught at {}", mutant.name, found.in_one_line());
                caught += 1;
            }
        }
    }
    println!("{caught} mutants caught");
    result
}

/// One mutant, with all that its mismatch shows.
fn compare_one_mutant(name: &str, length: &Length) -> ExitCode {
    let Some(mutant) = mutants().into_iter().find(|mutant| mutant.name == name) else {
        let names: Vec<&str> = mutants().iter().map(|mutant| mutant.name).collect();
        eprintln!("no mutant {name:?}; there are:\n{}", names.join("\n"));
        return ExitCode::from(2);
    };
    match compare(&mutant, &[mutant.part], length) {
        Ok(tally) => {
            println!("{name}: SURVIVED {} calls", tally.calls());
            ExitCode::FAILURE
        }
        Err(found) => {
            println!("{name}: caught at {}", found.whole());
            ExitCode::SUCCESS
        }
    }
}
