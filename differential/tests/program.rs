//! The program's arguments, exit status and last line.

use std::process::Command;

fn run(arguments: &[&str]) -> (Option<i32>, String, String) {
    let output = Command::new(env!("CARGO_BIN_EXE_tag-runs"))
        .args(arguments)
        .output()
        .expect("the program starts");
    let text = |bytes: Vec<u8>| String::from_utf8(bytes).expect("text");
    (output.status.code(), text(output.stdout), text(output.stderr))
}

#[test]
fn without_arguments_the_usage() {
    let (status, out, err) = run(&[]);
    assert_eq!((status, err.as_str()), (Some(0), ""));
    assert!(out.starts_with("usage: tag-runs [--exact] COMMANDS [SEED [CASE]]\n"));
}

#[test]
fn wrong_arguments_in_plain_words() {
    for (arguments, wrong) in [
        (
            ["many"].as_slice(),
            "COMMANDS must be a whole number below 2^64, and 'many' is not",
        ),
        (&["0"], "COMMANDS must be 1 or more"),
        (
            &["--exact"],
            "COMMANDS must be a whole number below 2^64, and '' is not",
        ),
        (&["1", "-1"], "SEED must be a whole number below 2^64, and '-1' is not"),
        (
            &["1", "1", "x"],
            "CASE must be a whole number below 2^64, and 'x' is not",
        ),
        (&["1", "2", "3", "4"], "three numbers at most, and 4 are given"),
    ] {
        let (status, out, err) = run(arguments);
        assert_eq!((status, out.as_str()), (Some(2), ""));
        assert!(err.starts_with(&format!("tag-runs: {wrong}\nusage: ")), "{err}");
    }
}

#[test]
fn a_short_run() {
    for arguments in [["3000", "5"].as_slice(), &["--exact", "3000", "5"]] {
        let (status, out, _) = run(arguments);
        assert_eq!(status, Some(0), "{out}");
        let last = out.lines().last().expect("a line");
        assert!(
            last.starts_with("3000 commands, ") && last.ends_with(" changed lists, seed 5: no difference"),
            "{last}"
        );
    }
}
