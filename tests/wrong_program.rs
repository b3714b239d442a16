//! Stands in the place of `mctower` and is wrong in one thing, which its own name says: it runs the program that MCTOWER_RIGHT names, with the same words
//! and input, changes what comes, and hands that on. As `right` it changes nothing. tests/wrong-programs.py looks whether the scripts of the gate see it.
//!
//! rustc --edition 2024 -O wrong_program.rs

use std::env;
use std::io::{self, Write};
use std::process::{Command, Stdio, exit};

/// What a run of the program left.
struct Outcome {
    status: i32,
    output: String,
    errors: String,
}

/// Runs the right program with this process's words and input.
fn right() -> io::Result<Outcome> {
    let program = env::var_os("MCTOWER_RIGHT").ok_or_else(|| io::Error::other("MCTOWER_RIGHT names no program"))?;
    let ran = Command::new(program).args(env::args_os().skip(1)).stdin(Stdio::inherit()).output()?;
    Ok(Outcome {
        status: ran.status.code().unwrap_or(125), // killed by a signal
        output: String::from_utf8_lossy(&ran.stdout).into_owned(),
        errors: String::from_utf8_lossy(&ran.stderr).into_owned(),
    })
}

/// Adds one to the last number of a line, if it has one.
fn one_more(line: &str) -> String {
    let end = line.rfind(|letter: char| letter.is_ascii_digit()).map_or(0, |at| at + 1);
    let start = line[..end].rfind(|letter: char| !letter.is_ascii_digit()).map_or(0, |at| at + 1);
    match line[start..end].parse::<u64>() {
        Ok(number) => format!("{}{}{}", &line[..start], number.wrapping_add(1), &line[end..]),
        Err(_) => line.to_string(),
    }
}

/// Changes the lines of a text that begin so.
fn changed(text: &str, begins: &str, change: impl Fn(&str) -> String) -> String {
    text.split_inclusive('\n').map(|line| if line.starts_with(begins) { change(line) } else { line.to_string() }).collect()
}

/// A line `left B ..` with nothing behind its buffer.
fn emptied(line: &str) -> String {
    let kept: Vec<&str> = line.split_whitespace().take(2).collect();
    format!("{}\n", kept.join(" "))
}

/// A text without its last entry.
fn without_last_entry(text: &str) -> String {
    let lines: Vec<&str> = text.split_inclusive('\n').collect();
    let last = lines.iter().rposition(|line| line.starts_with("e "));
    lines.iter().enumerate().filter(|(at, _)| Some(*at) != last).map(|(_, line)| *line).collect()
}

/// Changes the one thing that this name says.
fn spoil(wrong: &str, said: &mut Outcome) -> io::Result<()> {
    match wrong {
        "right" => {}
        "status_is_0" => said.status = 0,
        "refusals_have_another_number" => said.errors = changed(&said.errors, "error: ", one_more),
        "a_no_is_a_line_off" => said.output = changed(&said.output, "no ", |line| line.replacen(' ', " 1", 1)),
        "a_no_is_a_yes" if said.output.starts_with("no ") => (said.status, said.output) = (0, "yes\n".into()),
        "a_no_is_a_yes" => {}
        "left_has_nothing" => said.output = changed(&said.output, "left ", emptied),
        "entries_have_another_pos" => said.output = changed(&said.output, "e ", one_more),
        "the_last_entry_is_lost" => said.output = without_last_entry(&said.output),
        "all_are_quiet" => said.errors = changed(&said.errors, "quiet ", |_| "quiet yes\n".into()),
        "places_are_others" => said.errors = changed(&said.errors, "thread ", |line| line.replace("Ready", "Pending").replace("Ended", "Ready(0)")),
        other => return Err(io::Error::other(format!("no wrong program is named {other}"))),
    }
    Ok(())
}

fn main() -> io::Result<()> {
    let own = env::args().next().unwrap_or_default();
    let mut said = right()?;
    spoil(own.rsplit('/').next().unwrap_or_default(), &mut said)?;
    io::stderr().write_all(said.errors.as_bytes())?;
    io::stdout().write_all(said.output.as_bytes())?;
    io::stdout().flush()?;
    exit(said.status)
}
