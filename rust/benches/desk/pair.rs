//! Two sides of one task: answers compared, then timed in turns.
use crate::clock;
use std::fmt::Debug;
use std::hint::black_box;
use std::time::Duration;

const ROUNDS: usize = 40;
const ROUND: Duration = Duration::from_millis(1);
/// What takes longer is run once.
const LONG: Duration = Duration::from_millis(500);

/// The time of one call on each side.
#[derive(Clone, Copy)]
pub struct Times {
    pub core: Duration,
    pub model: Duration,
}

impl Times {
    pub fn least(self, other: Times) -> Times {
        Times { core: self.core.min(other.core), model: self.model.min(other.model) }
    }

    /// So long that one call of each is enough.
    pub fn long(&self) -> bool {
        self.core + self.model > LONG
    }

    pub fn ratio(&self) -> f64 {
        self.core.as_secs_f64() / self.model.as_secs_f64()
    }
}

fn timed<T>(clock: fn() -> Duration, calls: u32, f: &mut dyn FnMut() -> T) -> Duration {
    let start = clock();
    for _ in 0..calls {
        black_box(f());
    }
    (clock() - start) / calls
}

/// How many calls fill a round.
fn calls(once: Duration) -> u32 {
    (ROUND.as_nanos() / once.as_nanos().max(1)).clamp(1, 10_000) as u32
}

/// One call of each side, whose answers have to be the same; then rounds of calls, the sides in turn, and the least
/// time of each: other work on the machine can only add to it.
pub fn compare<T: PartialEq + Debug>(
    clock: fn() -> Duration,
    core: &mut dyn FnMut() -> T,
    model: &mut dyn FnMut() -> T,
) -> Times {
    let answer = |f: &mut dyn FnMut() -> T| {
        let start = clock();
        let answer = f();
        (answer, clock() - start)
    };
    let (ours, core_once) = answer(core);
    let (theirs, model_once) = answer(model);
    assert_eq!(ours, theirs, "the answers differ");
    let mut least = Times { core: core_once, model: model_once };
    if least.long() {
        return least;
    }
    let (core_calls, model_calls) = (calls(core_once), calls(model_once));
    for _ in 0..ROUNDS {
        least.core = least.core.min(timed(clock, core_calls, core));
        least.model = least.model.min(timed(clock, model_calls, model));
    }
    least
}

/// The least time of one call, over rounds of calls.
pub fn least<T>(f: &mut dyn FnMut() -> T) -> Duration {
    let calls = calls(timed(clock::thread, 1, f));
    (0..ROUNDS / 2).map(|_| timed(clock::thread, calls, f)).min().expect("some rounds")
}

/// A time in three figures.
pub fn shown(time: Duration) -> String {
    let ns = time.as_nanos() as f64;
    let (value, unit) = match ns {
        ns if ns < 1e3 => (ns, "ns"),
        ns if ns < 1e6 => (ns / 1e3, "µs"),
        ns if ns < 1e9 => (ns / 1e6, "ms"),
        ns => (ns / 1e9, "s"),
    };
    let digits = if value < 10.0 { 2 } else { usize::from(value < 100.0) };
    format!("{value:.digits$} {unit}")
}
