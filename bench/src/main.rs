// Times the proved response bound against the plain iteration, all streams of a plan, and compares every answer.
//   cargo run --release                     the two plans of data/
//   cargo run --release -- PLAN ..          other plans
//   cargo run --release -- random N SEED    N random plans: every answer compared, and the smallest speed-up
//   cargo run --release -- search N SEED    the same of plans that are loaded to the brim, where a search takes long
mod core;
mod plain;
mod plan;
mod random;

use plan::Plan;
use std::time::Duration;

#[repr(C)]
struct Timespec {
    seconds: i64,
    nanoseconds: i64,
}

unsafe extern "C" {
    fn clock_gettime(clock: i32, t: *mut Timespec) -> i32;
}

// Processor time of this thread, so that other work on the machine counts little.
fn processor_time() -> Duration {
    let mut t = Timespec { seconds: 0, nanoseconds: 0 };
    unsafe { clock_gettime(3, &mut t) };
    Duration::new(t.seconds as u64, t.nanoseconds as u32)
}

fn timed<T>(f: impl FnOnce() -> T) -> (T, Duration) {
    let start = processor_time();
    let r = f();
    (r, processor_time() - start)
}

pub struct Outcome {
    pub plain: Duration,
    pub proved: Duration,
    pub endless: usize,
}

// All streams of a plan, by both, the least time of so many runs; panics where they differ.
fn compare(p: &Plan, runs: u32) -> Option<Outcome> {
    let stairs = p.stairs()?;
    let table = core::table(&stairs);
    let questions: Vec<_> = (0..p.streams.len()).map(|i| plain::question(p, i)).collect();
    let mut least = Outcome { plain: Duration::MAX, proved: Duration::MAX, endless: 0 };
    for _ in 0..runs {
        let (proved, fast) = timed(|| questions.iter().map(|q| q.proved(p.cycle, &table)).collect::<Vec<_>>());
        let (slow, plain) = timed(|| questions.iter().map(|q| q.plain(p.cycle, &stairs)).collect::<Vec<_>>());
        assert_eq!(slow, proved, "the answers differ");
        least = Outcome {
            plain: least.plain.min(plain),
            proved: least.proved.min(fast),
            endless: slow.iter().filter(|r| r.is_none()).count(),
        };
    }
    Some(least)
}

fn main() {
    let args: Vec<String> = std::env::args().skip(1).collect();
    if let Some(kind @ ("random" | "search")) = args.first().map(String::as_str) {
        let n = args.get(1).map_or(1000, |s| s.parse().unwrap());
        let seed = args.get(2).map_or(1, |s| s.parse().unwrap());
        return random::run(if kind == "random" { random::plan } else { random::full }, n, seed);
    }
    let data = concat!(env!("CARGO_MANIFEST_DIR"), "/data");
    let files = if args.is_empty() {
        vec![format!("{data}/worst.plan"), format!("{data}/calm.plan")]
    } else {
        args
    };
    for file in files {
        let p = plan::read(&std::fs::read(&file).unwrap());
        let o = compare(&p, 1).expect("no free cell");
        println!(
            "{file}: {} streams ({} endless), plain {:?}, proved {:?}, {:.1} times faster; all answers agree",
            p.streams.len(),
            o.endless,
            o.plain,
            o.proved,
            o.plain.as_secs_f64() / o.proved.as_secs_f64()
        );
    }
}
