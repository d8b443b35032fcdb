//! The program `tag-bench`, which bench/tag/run builds and starts: the proved library and the reference on the same
//! commands, by time or by instructions.

mod cases;
mod check;
mod commands;
mod host;
mod image;
mod instructions;
mod random;
mod sides;
mod workloads;

use cases::{Bench, Case};
use std::env;
use std::process::ExitCode;
use std::time::Duration;

/// The figure of the proved library and that of the reference.
type Figures = Result<[f64; 2], String>;

/// Checks all cases, and only then prints the figures of each and their ratio.
fn table(what: &str, figures: impl Fn(&mut Bench, &Case) -> Figures) -> Result<(), String> {
    let workloads = workloads::all();
    let (cases, mut bench) = (cases::all(&workloads), Bench::new(&workloads));
    let granted = cases.iter().map(|case| check::granted(&mut bench, case));
    let granted: Vec<usize> = granted.collect::<Result<_, _>>()?;
    println!(
        "{what:<24}{:>10}{:>10}{:>10}{:>11}{:>8}",
        "commands", "granted", "proved", "reference", "ratio"
    );
    for (case, granted) in cases.iter().zip(granted) {
        let [proved, reference] = figures(&mut bench, case)?;
        let (name, commands, ratio) = (case.name(), case.commands.len(), proved / reference);
        println!("{name:<24}{commands:>10}{granted:>10}{proved:>10.1}{reference:>11.1}{ratio:>8.2}");
    }
    Ok(())
}

fn number(text: &str) -> Result<u64, String> {
    text.parse()
        .map_err(|_| format!("'{text}' is not a whole number below 2^64"))
}

fn carry_out(arguments: &[&str]) -> Result<(), String> {
    match *arguments {
        ["time", seconds] => {
            let time = Duration::from_secs(number(seconds)?);
            table("nanoseconds a command", |bench, case| Ok(bench.best_times(case, time)))
        }
        ["instructions"] => table("instructions a command", |_, case| instructions::of_both(case)),
        ["repeat", side, case, times] => instructions::repeat(side, case, number(times)?),
        _ => Err("bench/tag/run says how it is used".into()),
    }
}

fn main() -> ExitCode {
    let arguments: Vec<String> = env::args().skip(1).collect();
    let arguments: Vec<&str> = arguments.iter().map(String::as_str).collect();
    match carry_out(&arguments) {
        Ok(()) => ExitCode::SUCCESS,
        Err(wrong) => {
            eprintln!("tag-bench: {wrong}");
            ExitCode::FAILURE
        }
    }
}
