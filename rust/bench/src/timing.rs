//! Alternating runs of the two sides, compared first and timed then.

use std::fmt;
use std::hint::black_box;
use std::time::Instant;

/// Runs of each side; the least time counts. They are many and short, so that some fall between what else the machine does.
pub const RUNS: u64 = 100;

/// Calls of a run at least.
pub const LEAST: u64 = 1_000;

/// What a run answers (numbers that stand for words, sums, buffers, lists and the generator after it), and how long the call took,
/// without the making of its generator, in seconds.
pub struct Run {
    pub answer: Vec<u64>,
    pub seconds: f64,
}

/// What a row may take.
#[derive(Clone, Copy)]
pub enum Limit {
    /// So many times the original.
    Times(f64),
    /// So many nanoseconds.
    Nanoseconds(f64),
    /// The row is a peer's, which is not ours to limit.
    Peer,
}

impl fmt::Display for Limit {
    fn fmt(&self, f: &mut fmt::Formatter<'_>) -> fmt::Result {
        match self {
            Self::Times(times) => f.pad(&format!("{times:.2}")),
            Self::Nanoseconds(most) => f.pad(&format!("{most:.0} ns")),
            Self::Peer => f.pad("peer"),
        }
    }
}

/// One thing that is timed, on both sides.
pub struct Case {
    /// What is done, e.g. `draw below 40, lent table`.
    pub what: &'static str,
    /// The kind of generator.
    pub kind: &'static str,
    /// How often it is done in a run, and what it is called.
    pub count: u64,
    pub unit: &'static str,
    pub limit: Limit,
    pub original: Box<dyn Fn() -> Run>,
    /// The port, or a peer in its place.
    pub port: Box<dyn Fn() -> Run>,
}

/// A line of the table: nanoseconds for each unit.
pub struct Line {
    pub what: &'static str,
    pub kind: &'static str,
    pub unit: &'static str,
    pub count: u64,
    pub limit: Limit,
    pub original: f64,
    pub port: f64,
}

impl Line {
    pub fn ratio(&self) -> f64 {
        self.port / self.original
    }

    /// Whether the port takes more than it may.
    pub fn is_above(&self) -> bool {
        match self.limit {
            Limit::Times(times) => self.ratio() > times,
            Limit::Nanoseconds(most) => self.port > most,
            Limit::Peer => false,
        }
    }
}

/// Calls `work` on the generator, timed; `answer` reads what came of it.
pub fn timed<G, T>(mut generator: G, work: impl FnOnce(&mut G) -> T, answer: impl FnOnce(T, &G) -> Vec<u64>) -> Run {
    black_box(&mut generator);
    let start = Instant::now();
    let came = black_box(work(&mut generator));
    let seconds = start.elapsed().as_secs_f64();
    Run { answer: answer(came, &generator), seconds }
}

/// Runs both sides in turn, or says that they differ.
pub fn measure(case: &Case) -> Result<Line, String> {
    let Case { what, kind, count, unit, limit, original, port } = case;
    let mut least = [f64::INFINITY; 2];
    for _ in 0..RUNS {
        let runs = [original(), port()];
        if runs[0].answer != runs[1].answer {
            return Err(format!("{kind}, {what}: the two sides differ, so no time is told"));
        }
        for (least, run) in least.iter_mut().zip(&runs) {
            *least = least.min(run.seconds);
        }
    }
    eprintln!("{what}, {kind}: {RUNS} runs of each side agree");
    let [original, port] = least.map(|seconds| seconds * 1e9 / *count as f64);
    Ok(Line { what, kind, unit, count: *count, limit: *limit, original, port })
}
