//! The most memory that an engine needs for an input, each measured in a process of its own.

use std::env;
use std::fs;
use std::io;
use std::process::Command;

use crate::engines::{self, Engine};
use crate::workloads::{self, Workload};

/// The option by which this program measures itself.
pub const OPTION: &str = "--peak";

/// KiB that an engine needs at most beyond what the input takes, or `None` where the system does
/// not tell.
pub fn peak(engine: &str, workload: &str) -> io::Result<Option<u64>> {
    let told = Command::new(env::current_exe()?)
        .args([OPTION, engine, workload])
        .output()?;
    Ok(String::from_utf8_lossy(&told.stdout).trim().parse().ok())
}

/// The work of the process that `peak` starts.
pub fn tell_peak(engine: &mut dyn Engine, workload: &Workload) {
    let before = status("VmRSS:");
    let mut out = Vec::new();
    engines::run(engine, &workload.input, &mut out);
    if let (Some(before), Some(most)) = (before, status("VmHWM:")) {
        println!("{}", most.saturating_sub(before));
    }
}

/// Reads the arguments after the option.
pub fn tell_peak_of(arguments: &[String]) -> Result<(), String> {
    let [engine, workload] = arguments else {
        return Err(format!("{OPTION} needs an engine and a workload"));
    };
    let mut engine = engines::by_name(engine).ok_or(format!("there is no engine {engine}"))?;
    let workload =
        workloads::by_name(workload).ok_or(format!("there is no workload {workload}"))?;
    tell_peak(&mut *engine, &workload);
    Ok(())
}

/// A line of this process's status, in KiB.
fn status(name: &str) -> Option<u64> {
    let status = fs::read_to_string("/proc/self/status").ok()?;
    let line = status.lines().find_map(|line| line.strip_prefix(name))?;
    line.split_whitespace().next()?.parse().ok()
}
