//! What `bench` prints.

use std::time::Duration;

use crate::engines::Engine;
use crate::measure::Measured;

const NAME: usize = 12;
const CELL: usize = 16;

/// Ratios that are told: how many times the first takes as long as the second.
const RATIOS: [[&str; 2]; 3] = [
    ["proved", "tuned"],
    ["proved", "second"],
    ["second", "tuned"],
];

pub struct Table<'a> {
    names: Vec<&'a str>,
}

impl<'a> Table<'a> {
    pub fn of(engines: &'a [Box<dyn Engine>]) -> Self {
        Table {
            names: engines.iter().map(|engine| engine.name()).collect(),
        }
    }

    pub fn print_heads(&self) {
        print!(
            "{:<NAME$}{:>CELL$}{:>CELL$}",
            "workload", "records", "bytes/record"
        );
        for name in &self.names {
            print!("{:>CELL$}", format!("{name} rec/s"));
        }
        for [first, second] in self.ratios() {
            print!("{:>CELL$}", format!("{first}:{second}"));
        }
        println!("{:>CELL$}", "tuned:copy");
    }

    pub fn print_row(&self, workload: &str, measured: &Measured) {
        let bytes = measured.bytes as f64 / measured.records as f64;
        print!(
            "{workload:<NAME$}{:>CELL$}{bytes:>CELL$.1}",
            grouped(measured.records as u64)
        );
        for time in &measured.engines {
            let per_second = measured.records as f64 / time.as_secs_f64();
            print!("{:>CELL$}", grouped(per_second as u64));
        }
        for names in self.ratios() {
            let [first, second] = names.map(|name| self.time(measured, name));
            print!("{:>CELL$.2}", ratio(first, second));
        }
        println!("{:>CELL$.2}", ratio(measured.engines[0], measured.copy));
    }

    /// How time and memory grow from a small day to a large one.
    pub fn print_growth(&self, small: &Measured, large: &Measured, peaks: &[Option<[u64; 2]>]) {
        let records = large.records as f64 / small.records as f64;
        println!(
            "\ngrowth from {} to {} records ({records:.2} times):",
            small.records, large.records
        );
        for (place, name) in self.names.iter().enumerate() {
            let time = ratio(large.engines[place], small.engines[place]);
            print!("{name:<NAME$}time {time:.2} times");
            match peaks.get(place).copied().flatten() {
                Some([small, large]) => println!(
                    ", memory {:.2} times ({} KiB to {} KiB)",
                    large as f64 / small as f64,
                    grouped(small),
                    grouped(large)
                ),
                None => println!(),
            }
        }
    }

    pub fn names(&self) -> &[&'a str] {
        &self.names
    }

    /// The ratios whose engines are both there.
    fn ratios(&self) -> impl Iterator<Item = [&'static str; 2]> + '_ {
        RATIOS
            .into_iter()
            .filter(|names| names.iter().all(|name| self.names.contains(name)))
    }

    fn time(&self, measured: &Measured, name: &str) -> Duration {
        let place = self.names.iter().position(|other| *other == name);
        place.map_or(Duration::ZERO, |place| measured.engines[place])
    }
}

fn ratio(first: Duration, second: Duration) -> f64 {
    first.as_secs_f64() / second.as_secs_f64()
}

/// With commas between thousands.
fn grouped(number: u64) -> String {
    let digits = number.to_string();
    let mut text = String::new();
    for (place, digit) in digits.chars().enumerate() {
        if place > 0 && (digits.len() - place).is_multiple_of(3) {
            text.push(',');
        }
        text.push(digit);
    }
    text
}
