//! `bench`: how fast each engine is, as ratios taken in one run.

use std::env;
use std::process::ExitCode;

use bench::engines::{self, Engine};
use bench::measure::{measure, Differs, Measured};
use bench::table::Table;
use bench::workloads::{self, Workload};
use bench::{comparison, memory};

const USAGE: &str = "\
usage: bench [--rounds N] [WORKLOAD...]
       bench --compare [--from SEED] [--seeds N] [--records N]
       bench --once ENGINE WORKLOAD
       bench --peak ENGINE WORKLOAD";

const ROUNDS: usize = 5;

fn main() -> ExitCode {
    let arguments: Vec<String> = env::args().skip(1).collect();
    let done = match arguments.first().map(String::as_str) {
        Some(comparison::OPTION) => comparison::compare_of(&arguments[1..]),
        Some(memory::OPTION) => memory::tell_peak_of(&arguments[1..]),
        Some("--once") => run_once(&arguments[1..]),
        Some("--rounds") => match arguments.get(1).and_then(|rounds| rounds.parse().ok()) {
            Some(rounds) => bench(rounds, &arguments[2..]),
            None => Err(USAGE.to_string()),
        },
        Some(option) if option.starts_with('-') => Err(USAGE.to_string()),
        _ => bench(ROUNDS, &arguments),
    };
    match done {
        Ok(()) => ExitCode::SUCCESS,
        Err(message) => {
            eprintln!("{message}");
            ExitCode::FAILURE
        }
    }
}

/// One run of one engine, for a profiler.
fn run_once(arguments: &[String]) -> Result<(), String> {
    let [engine, workload] = arguments else {
        return Err(USAGE.to_string());
    };
    let mut engine = engines::by_name(engine).ok_or(USAGE)?;
    let workload = workloads::by_name(workload).ok_or(USAGE)?;
    let mut out = Vec::new();
    engines::run(&mut *engine, &workload.input, &mut out);
    println!(
        "{} records read, {} written",
        workload.records(),
        out.len() / 40
    );
    Ok(())
}

fn bench(rounds: usize, wanted: &[String]) -> Result<(), String> {
    let mut engines = engines::all();
    let workloads = workloads::named(wanted);
    if workloads.is_empty() || rounds == 0 {
        return Err(USAGE.to_string());
    }
    let mut rows = Vec::new();
    Table::of(&engines).print_heads();
    for workload in &workloads {
        let measured =
            measure(&mut engines, workload, rounds).map_err(|differs| told(workload, &differs))?;
        Table::of(&engines).print_row(workload.name, &measured);
        rows.push((workload.name, measured));
    }
    print_growth(&engines, &rows);
    Ok(())
}

fn told(workload: &Workload, differs: &Differs) -> String {
    let Differs { engine, other } = differs;
    format!(
        "{engine} and {other} do not write the same for {}",
        workload.name
    )
}

/// Where both sizes of the same day were measured.
fn print_growth(engines: &[Box<dyn Engine>], rows: &[(&str, Measured)]) {
    let row = |wanted| {
        rows.iter()
            .find(|(name, _)| *name == wanted)
            .map(|(_, measured)| measured)
    };
    let (Some(small), Some(large)) = (row(workloads::SMALL_DAY), row(workloads::LARGE_DAY)) else {
        return;
    };
    let table = Table::of(engines);
    let peaks: Vec<_> = table.names().iter().map(|name| peaks_of(name)).collect();
    table.print_growth(small, large, &peaks);
}

fn peaks_of(engine: &str) -> Option<[u64; 2]> {
    let peak = |workload| memory::peak(engine, workload).ok().flatten();
    Some([peak(workloads::SMALL_DAY)?, peak(workloads::LARGE_DAY)?])
}
