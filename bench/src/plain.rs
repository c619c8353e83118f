// The plain iteration: each step divides once a stream, and all frames are computed, each from the wait of the one
// before.
use crate::plan::{wire_time, Plan, Stairs};

pub const HORIZON: u64 = 100_000_000;

// What the question about one stream is made of: the streams of equal or higher priority beside it, and L.
pub struct Question {
    pub period: [u32; 64],
    pub jitter: [u32; 64],
    pub cost: [u32; 64],
    pub n: usize,
    pub lower: u32,
    pub own_cost: u32,
    pub own_period: u32,
    pub own_jitter: u32,
}

pub fn question(p: &Plan, i: usize) -> Question {
    let own = p.streams[i];
    let mut q = Question {
        period: [0; 64],
        jitter: [0; 64],
        cost: [0; 64],
        n: 0,
        lower: 0,
        own_cost: wire_time(p.rate, own.octets),
        own_period: own.period,
        own_jitter: own.jitter,
    };
    for (k, s) in p.streams.iter().enumerate() {
        let c = wire_time(p.rate, s.octets);
        if k == i {
            continue;
        }
        if s.priority >= own.priority {
            q.period[q.n] = s.period;
            q.jitter[q.n] = s.jitter;
            q.cost[q.n] = c;
            q.n += 1;
        } else {
            q.lower = q.lower.max(c);
        }
    }
    q
}

// V(t): whole cycles times all blocked cells, plus the total of the last stair that the remainder reaches.
fn interference(cycle: u32, s: &Stairs, t: u64) -> u64 {
    let t = t as u32;
    let reached = s.far.partition_point(|&far| far <= t % cycle);
    let all = s.tot.last().copied().unwrap_or(0);
    let rest = if reached == 0 { 0 } else { s.tot[reached - 1] };
    (t / cycle) as u64 * all as u64 + rest as u64
}

impl Question {
    fn load(&self, x: u64) -> u64 {
        let x = x as u32;
        (0..self.n).map(|k| ((x + self.jitter[k]) / self.period[k] + 1) as u64 * self.cost[k] as u64).sum()
    }

    // The bound, none where the stream is endless.
    pub fn plain(&self, cycle: u32, s: &Stairs) -> Option<u64> {
        let (l, c) = (self.lower as u64, self.own_cost as u64);
        let (t, j) = (self.own_period as u64, self.own_jitter as u64);
        let most = |x: u64| ((x as u32 + self.own_jitter) / self.own_period + 1) as u64;
        let mut b = 0;
        loop {
            let need = l + most(b) * c + self.load(b) + interference(cycle, s, b);
            if need <= b {
                break;
            }
            if HORIZON < need {
                return None;
            }
            b = need;
        }
        let (mut w, mut best) = (0, 0);
        for q in 0..most(b) {
            loop {
                let need = l + q * c + self.load(w) + interference(cycle, s, w + c);
                if need <= w {
                    break;
                }
                w = need;
            }
            best = best.max(w + c - (q * t).saturating_sub(j));
            w += c;
        }
        Some(best)
    }
}
