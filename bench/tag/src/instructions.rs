//! Instructions for a command, counted by callgrind, a tool of valgrind. It counts what a whole program does, so this
//! program starts itself under it to carry out one case some times and nothing else.

use crate::cases::{self, Bench, Case};
use crate::sides::{Proved, Reference};
use crate::workloads;
use std::env;
use std::process::Command;

/// How many times more a case is carried out for the second count. The difference of the two leaves out what is done
/// once; the making of a fresh tag stays in it, with less than one instruction for a command.
const MORE: u64 = 10;

/// Of the proved library, and of the reference.
pub fn of_both(case: &Case) -> Result<[f64; 2], String> {
    Ok([of("proved", case)?, of("reference", case)?])
}

fn of(side: &str, case: &Case) -> Result<f64, String> {
    let (once, more) = (counted(side, case, 1)?, counted(side, case, 1 + MORE)?);
    Ok((more - once) as f64 / (MORE as f64 * case.commands.len() as f64))
}

fn counted(side: &str, case: &Case, times: u64) -> Result<u64, String> {
    let program = env::current_exe().map_err(|error| format!("the program does not find itself: {error}"))?;
    let output = Command::new("valgrind")
        .args(["--tool=callgrind", "--callgrind-out-file=/dev/null"])
        .arg(program)
        .args(["repeat", side, &case.name(), &times.to_string()])
        .output()
        .map_err(|error| format!("valgrind, which counts the instructions, cannot be started: {error}"))?;
    let said = String::from_utf8_lossy(&output.stderr);
    let count = |line: &str| line.split_once("Collected : ")?.1.parse().ok();
    let count = said.lines().find_map(count).filter(|_| output.status.success());
    count.ok_or_else(|| format!("valgrind did not count the instructions; it said\n{said}"))
}

/// What is counted.
pub fn repeat(side: &str, name: &str, times: u64) -> Result<(), String> {
    let workloads = workloads::all();
    let (cases, mut bench) = (cases::all(&workloads), Bench::new(&workloads));
    let case = cases.iter().find(|case| case.name() == name);
    let case = case.ok_or_else(|| format!("there is no case '{name}'"))?;
    for _ in 0..times {
        match side {
            "proved" => _ = bench.carry_out::<Proved>(case),
            "reference" => _ = bench.carry_out::<Reference>(case),
            _ => return Err(format!("there is no side '{side}'")),
        }
    }
    Ok(())
}
