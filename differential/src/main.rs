//! The program `tag-runs`: the proved tag and the reference on the same images, commands and logs.

use differential::compare::Lending;
use differential::runs::{Found, Runs};
use differential::sides::{Proved, Reference};
use differential::{report, shrink};
use std::process::ExitCode;
use std::time::Duration;

const USAGE: &str = "usage: tag-runs [--exact] COMMANDS [SEED [CASE]]
Carries out COMMANDS commands, and logs made of some of them, on the proved tag and on the reference, and compares
every byte. Each list of commands is also changed as demand 3 allows, by copies of granted writes and by exchanged
neighbours, and must come to the same. The same SEED (1 if none is given) makes the same commands. With CASE, that case
alone. With --exact each buffer is an allocation of just its length, for a memory checker to watch; without, bytes
around it are watched. The exit status is 0 if all is well, 1 if there is a difference or something was met too seldom
or wrongly, 2 if the arguments are wrong.";

/// From this many commands on, each answer of the set, and all else that is counted, must have been met.
const WHOLE: u64 = 200_000;
const SHRINKING: Duration = Duration::from_secs(5);

struct Arguments {
    lending: Lending,
    commands: u64,
    seed: u64,
    case: Option<u64>,
}

fn number(name: &str, text: &str) -> Result<u64, String> {
    text.parse()
        .map_err(|_| format!("{name} must be a whole number below 2^64, and '{text}' is not"))
}

fn arguments(given: &[String]) -> Result<Arguments, String> {
    let (lending, given) = match given {
        [first, rest @ ..] if first == "--exact" => (Lending::Exact, rest),
        _ => (Lending::Margins, given),
    };
    if given.len() > 3 {
        return Err(format!("three numbers at most, and {} are given", given.len()));
    }
    let commands = number("COMMANDS", given.first().map_or("", String::as_str))?;
    if commands == 0 {
        return Err("COMMANDS must be 1 or more".into());
    }
    let seed = given.get(1).map_or(Ok(1), |text| number("SEED", text))?;
    let case = given.get(2).map(|text| number("CASE", text)).transpose()?;
    Ok(Arguments {
        lending,
        commands,
        seed,
        case,
    })
}

/// Shrinks and tells a case. A side that panics does so many times meanwhile, and its messages are kept back.
fn tell(runs: &mut Runs, seed: u64, found: &Found) {
    let hook = std::panic::take_hook();
    std::panic::set_hook(Box::new(|_| {}));
    let (small, failure) = shrink::smallest(&mut runs.pair, found.case.clone(), found.failure.clone(), SHRINKING);
    std::panic::set_hook(hook);
    print!("{}", report::difference(seed, found, &small, &failure));
}

/// The table, and what is wrong with it; true if nothing is.
fn table(runs: &Runs, whole: bool) -> bool {
    print!("{}", runs.tally.text());
    let outside = runs.tally.outside_the_set();
    let not_met = if whole { runs.tally.not_met() } else { Vec::new() };
    for line in &outside {
        println!("met, and the papers rule it out: {line}");
    }
    for line in &not_met {
        println!("not met: {line}");
    }
    outside.is_empty() && not_met.is_empty()
}

fn run(given: &Arguments) -> bool {
    let mut runs = Runs::lending(given.seed, &Reference, &Proved, given.lending);
    let result = match given.case {
        Some(case) => runs.case(case, given.commands),
        None => runs.many(given.commands),
    };
    if let Err(found) = &result {
        tell(&mut runs, given.seed, found);
        println!();
    }
    let met = table(&runs, result.is_ok() && given.case.is_none() && given.commands >= WHOLE);
    let end = match (&result, met) {
        (Err(_), _) => "a difference",
        (Ok(()), false) => "no difference, but not the answers that are due",
        (Ok(()), true) => "no difference",
    };
    println!(
        "{} commands, {} runs over logs, {} changed lists, seed {}: {end}",
        runs.commands, runs.log_runs, runs.changed_lists, given.seed
    );
    result.is_ok() && met
}

fn main() -> ExitCode {
    let given: Vec<String> = std::env::args().skip(1).collect();
    if given.is_empty() {
        println!("{USAGE}");
        return ExitCode::SUCCESS;
    }
    match arguments(&given) {
        Ok(given) => ExitCode::from(u8::from(!run(&given))),
        Err(wrong) => {
            eprintln!("tag-runs: {wrong}\n{USAGE}");
            ExitCode::from(2)
        }
    }
}
