//! Compares a program with the second engine, on inputs that are the same every time.

use reference::compare::{run_program, try_compare_with};
use reference::compare::{FailedInput, Failure, Judge, Plan, Summary};
use std::process::ExitCode;
use std::{env, fs};

const USAGE: &str = "usage: compare PROGRAM [--from N] [--seeds N] [--records N] [--laws-alone]";

/// Ends with status 1 only for a difference or a broken law, so that a script can tell them apart.
const DIFFERS: u8 = 1;
const COULD_NOT_RUN: u8 = 2;
const NOT_COVERED: u8 = 3;

fn main() -> ExitCode {
    let (program, plan) = match read_arguments(env::args().skip(1)) {
        Ok(read) => read,
        Err(message) => {
            eprintln!("{message}\n{USAGE}");
            return ExitCode::from(COULD_NOT_RUN);
        }
    };
    match try_compare_with(|input| run_program(&program, input), plan) {
        Ok(summary) => tell_summary(&summary),
        Err(failed) => tell_failure(&failed),
    }
}

fn read_arguments(mut arguments: impl Iterator<Item = String>) -> Result<(String, Plan), String> {
    let program = arguments.next().ok_or("no program is named")?;
    let mut plan = Plan::default();
    while let Some(option) = arguments.next() {
        match option.as_str() {
            "--from" => plan.from = read_number(&mut arguments)?,
            "--seeds" => plan.seeds = read_number(&mut arguments)?,
            "--records" => plan.records = read_number(&mut arguments)? as usize,
            "--laws-alone" => plan.judge = Judge::LawsAlone,
            _ => return Err(format!("there is no option {option}")),
        }
    }
    Ok((program, plan))
}

fn read_number(arguments: &mut impl Iterator<Item = String>) -> Result<u64, String> {
    let text = arguments.next().ok_or("a number is missing")?;
    text.parse().map_err(|_| format!("{text} is not a number"))
}

fn tell_summary(summary: &Summary) -> ExitCode {
    print!("{}", summary.coverage);
    let (records, inputs) = (summary.records, summary.inputs);
    let is_covered = summary.coverage.is_complete();
    if !is_covered {
        println!("the coverage is not as it must be: see MISSING and UNFORESEEN above");
    }
    println!("compared {records} records in {inputs} inputs: no difference");
    if is_covered {
        ExitCode::SUCCESS
    } else {
        ExitCode::from(NOT_COVERED)
    }
}

fn tell_failure(failed: &FailedInput) -> ExitCode {
    println!("{failed}");
    let path = env::temp_dir().join(format!("{}.records", failed.input.name));
    match fs::write(&path, &failed.input.bytes) {
        Ok(()) => println!("the input is saved as {}", path.display()),
        Err(error) => println!("the input could not be saved: {error}"),
    }
    ExitCode::from(match failed.failure {
        Failure::Differs(_) | Failure::LawBroken(_) => DIFFERS,
        Failure::CouldNotRun(_) => COULD_NOT_RUN,
    })
}
