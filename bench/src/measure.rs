//! Times, taken side by side in one run.

use std::hint::black_box;
use std::time::Duration;

use crate::engines::{self, Engine};
use crate::stopwatch::worked;
use crate::workloads::Workload;

/// In one round an engine works an input over again until this has passed, and its best time
/// counts: a short run alone would tell more of the machine than of the engine.
const ROUND: Duration = Duration::from_millis(20);

/// The best times of a workload.
pub struct Measured {
    pub records: usize,
    /// Input and output together.
    pub bytes: usize,
    /// To move as many bytes and do nothing else.
    pub copy: Duration,
    /// Of each engine, in the order of the engines.
    pub engines: Vec<Duration>,
}

/// Two engines that do not write the same.
pub struct Differs {
    pub engine: &'static str,
    pub other: &'static str,
}

/// Measures all engines in turn, so many rounds, after they have written the same bytes.
pub fn measure(
    engines: &mut [Box<dyn Engine>],
    workload: &Workload,
    rounds: usize,
) -> Result<Measured, Differs> {
    let mut outputs = all_outputs(engines, workload)?;
    let bytes = workload.input.len() + outputs[0].len();
    let mut copier = Copier::new(bytes);
    let mut copy = Duration::MAX;
    let mut best = vec![Duration::MAX; engines.len()];
    for _ in 0..rounds {
        copy = copy.min(best_of_round(|| copier.copy()));
        for ((engine, out), best) in engines.iter_mut().zip(&mut outputs).zip(&mut best) {
            let time = best_of_round(|| engines::run(&mut **engine, &workload.input, out));
            *best = time.min(*best);
        }
    }
    Ok(Measured {
        records: workload.records(),
        bytes,
        copy,
        engines: best,
    })
}

/// The floor: reads and writes so many bytes in all, as one plain copy of half of them.
struct Copier {
    from: Vec<u8>,
    to: Vec<u8>,
}

impl Copier {
    fn new(bytes: usize) -> Self {
        Copier {
            from: vec![1; bytes / 2],
            to: vec![2; bytes / 2],
        }
    }

    fn copy(&mut self) {
        self.to.copy_from_slice(black_box(&self.from));
        black_box(&mut self.to);
    }
}

fn all_outputs(
    engines: &mut [Box<dyn Engine>],
    workload: &Workload,
) -> Result<Vec<Vec<u8>>, Differs> {
    let mut outputs: Vec<Vec<u8>> = Vec::new();
    for engine in engines.iter_mut() {
        let mut out = Vec::new();
        engines::run(&mut **engine, &workload.input, &mut out);
        outputs.push(out);
    }
    match outputs.iter().position(|out| *out != outputs[0]) {
        None => Ok(outputs),
        Some(place) => Err(Differs {
            engine: engines[place].name(),
            other: engines[0].name(),
        }),
    }
}

fn best_of_round(mut work: impl FnMut()) -> Duration {
    let start = worked();
    let (mut best, mut before) = (Duration::MAX, start);
    loop {
        work();
        let now = worked();
        best = best.min(now - before);
        if now - start >= ROUND {
            return best;
        }
        before = now;
    }
}
