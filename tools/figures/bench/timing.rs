//! The best wall time of a stage.

use super::fault::Fault;
use super::stages::Stage;
use std::rt::Clock;
use std::time::{Duration, Instant};

const MOST_RUNS: u32 = 20;

const LEAST_RUNS: u32 = 3;

/// No run begins after these seconds, but for the first `LEAST_RUNS`.
const BUDGET_SECONDS: u64 = 5;

/// The time of one run of a stage, and the size of what it made.
#[derive(Clone, Copy)]
pub(crate) struct Run {
    time: Duration,
    size: usize,
}

impl Run {
    /// A run that began at `start`, and ends now.
    pub(crate) fn ended(clock: &impl Clock, start: Instant, size: usize) -> Result<Run, Fault> {
        let time = start.elapsed(clock)?;
        Ok(Run { time, size })
    }
}

/// The time of the fastest run of a stage, and the sum of the sizes of what its runs made. The sum is printed, so that no
/// compiler can leave a run out.
#[derive(Clone, Copy)]
pub(crate) struct Timed {
    pub(crate) best: Duration,
    pub(crate) made: u64,
}

/// The stage that is run, each if none, and how often, as time allows if that is none.
#[derive(Drop)]
pub(crate) struct Asked {
    pub(crate) stage: Option<String>,
    pub(crate) runs: Option<u32>,
}

impl Asked {
    pub(crate) fn has(&self, name: &str) -> bool {
        match &self.stage {
            Some(stage) => stage.as_str() == name,
            None => true,
        }
    }
}

/// Times the runs of a stage: as many as are asked for, or up to `MOST_RUNS`.
pub(crate) fn best(
    rt: &HostRuntime,
    stage: &Stage<'_, '_>,
    runs: Option<u32>,
) -> Result<Timed, Fault> {
    let begin = Instant::now(rt)?;
    let mut timed = Timed {
        best: Duration::MAX,
        made: 0,
    };
    let least = runs.unwrap_or(LEAST_RUNS);
    for done in 0..runs.unwrap_or(MOST_RUNS) {
        if done >= least && begin.elapsed(rt)?.as_secs() >= BUDGET_SECONDS {
            break;
        }
        let run = stage.run(rt)?;
        timed.best = timed.best.min(run.time);
        timed.made = timed.made.wrapping_add(run.size as u64);
    }
    Ok(timed)
}
