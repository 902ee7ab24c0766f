//! `--compare`: an engine against the second one on the reference package's own inputs.

use reference::compare::{compare_with, FailedInput, Failure, Plan};

use crate::engines::{self, Engine};

pub const OPTION: &str = "--compare";

/// Compares the proved engine if this build has it, else the tuned one.
pub fn compare_of(arguments: &[String]) -> Result<(), String> {
    let plan = plan_of(arguments)?;
    let mut engine = engines::by_name("proved")
        .or_else(|| engines::by_name("tuned"))
        .ok_or("this build has no engine")?;
    compare(&mut *engine, plan)
}

fn plan_of(arguments: &[String]) -> Result<Plan, String> {
    let mut plan = Plan::default();
    for pair in arguments.chunks(2) {
        let [option, value] = pair else {
            return Err(format!("{} needs a number", pair[0]));
        };
        let number: u64 = value
            .parse()
            .map_err(|_| format!("{value} is not a number"))?;
        match option.as_str() {
            "--from" => plan.from = number,
            "--seeds" => plan.seeds = number,
            "--records" => plan.records = number as usize,
            _ => return Err(format!("there is no option {option}")),
        }
    }
    Ok(plan)
}

fn compare(engine: &mut dyn Engine, plan: Plan) -> Result<(), String> {
    let name = engine.name();
    let run = |input: &[u8]| {
        let mut out = Vec::new();
        engine.key_of(input, &mut out);
        out
    };
    let summary = compare_with(run, plan).map_err(|failed| told(name, &failed))?;
    print!("{}", summary.coverage);
    if !summary.coverage.is_complete() {
        println!("not everything was covered that can be reached, and nothing else");
    }
    println!(
        "{name}: {} records in {} inputs, no difference",
        summary.records, summary.inputs
    );
    Ok(())
}

fn told(name: &str, failed: &FailedInput) -> String {
    let why = match &failed.failure {
        Failure::Differs(difference) => format!("differs\n{difference}"),
        Failure::LawBroken(broken) => format!("breaks a law\n{broken}"),
        Failure::CouldNotRun(error) => format!("could not be run: {error}"),
    };
    format!("{name} on input {}: {why}", failed.input.name)
}
