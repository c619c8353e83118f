// A plan (document 01, "The plan's bytes"), and the stairs of its slots: written from the document alone.

#[derive(Clone, Copy)]
pub struct Stream {
    pub id: u32,
    pub priority: u32,
    pub octets: u32,
    pub period: u32,
    pub jitter: u32,
}

#[derive(Default)]
pub struct Plan {
    pub rate: u32,
    pub cycle: u32,
    pub guard: u32,
    pub header: u32,
    pub slots: Vec<(u32, u32)>,
    pub streams: Vec<Stream>,
}

// Distances and totals of the stairs, rising.
pub struct Stairs {
    pub far: Vec<u32>,
    pub tot: Vec<u32>,
}

fn number(octets: &[u8]) -> u32 {
    octets.iter().fold(0, |n, o| n << 8 | *o as u32)
}

// The fields of a good plan: tag, length, value.
pub fn read(mut octets: &[u8]) -> Plan {
    let mut p = Plan::default();
    while !octets.is_empty() {
        let (head, rest) = octets.split_at(3);
        let (v, next) = rest.split_at(number(&head[1..]) as usize);
        match head[0] {
            1 => {
                p.rate = number(&v[0..1]);
                p.cycle = number(&v[1..5]);
                p.guard = number(&v[5..9]);
                p.header = number(&v[9..13]);
            }
            2 => p.slots.push((number(&v[0..4]), number(&v[4..8]))),
            3 => p.streams.push(Stream {
                id: number(&v[0..2]),
                priority: number(&v[2..3]),
                octets: number(&v[3..5]),
                period: number(&v[5..9]),
                jitter: number(&v[9..13]),
            }),
            tag => panic!("unknown tag {tag}"),
        }
        octets = next;
    }
    p.slots.sort();
    p.streams.sort_by_key(|s| s.id);
    p
}

// (octets + 8) x the time of ten octets / 10, rounded up.
pub fn wire_time(rate: u32, octets: u32) -> u32 {
    let ten = [0, 8000, 800, 80, 32, 8][rate as usize];
    ((octets + 8) * ten).div_ceil(10)
}

impl Plan {
    // Start and length of each blocked run, by rising start; none where no cell is left free.
    pub fn runs(&self) -> Option<Vec<(u64, u64)>> {
        let n = self.slots.len();
        let cycle = self.cycle as u64;
        let around = (self.guard + self.header) as u64;
        let gap = |i: usize| {
            let next = if i + 1 < n { self.slots[i + 1].0 as u64 } else { self.slots[0].0 as u64 + cycle };
            next - self.slots[i].1 as u64
        };
        // a run ends after a slot from which the next one is further than header and guard
        let ends: Vec<usize> = (0..n).filter(|&i| gap(i) > around).collect();
        if n > 0 && ends.is_empty() {
            return None;
        }
        let mut runs = vec![];
        for (k, &end) in ends.iter().enumerate() {
            let last = ends[(k + 1) % ends.len()];
            let start = self.slots[(end + 1) % n].0 as u64;
            let mut stop = self.slots[last].1 as u64;
            if stop <= start {
                stop += cycle;
            }
            let before = self.guard as u64 % cycle;
            runs.push(((start + cycle - before) % cycle, stop - start + around));
        }
        runs.sort();
        Some(runs)
    }

    // The pairs of every run that no other pair covers, by rising distance.
    pub fn stairs(&self) -> Option<Stairs> {
        let runs = self.runs()?;
        let cycle = self.cycle as u64;
        let mut pairs = vec![];
        for i in 0..runs.len() {
            let mut total = 0;
            for j in 0..runs.len() {
                let (start, len) = runs[(i + j) % runs.len()];
                total += len;
                pairs.push(((start + cycle - runs[i].0) % cycle, total));
            }
        }
        pairs.sort_by_key(|&(far, total)| (far, u64::MAX - total));
        let mut s = Stairs { far: vec![], tot: vec![] };
        let mut best = 0;
        for (far, total) in pairs {
            if total > best {
                best = total;
                s.far.push(far as u32);
                s.tot.push(total as u32);
            }
        }
        Some(s)
    }
}
