// The proved core, as `tools/staticlib speed` links it. What its contract requires is met by every plan in range: the
// stairs are those of the slots, and the rows hold the numbers of streams.
use crate::plain::Question;
use crate::plan::Stairs;

unsafe extern "C" {
    fn speed_bound(
        per: *const u32,
        jit: *const u32,
        cost: *const u32,
        n: usize,
        far: *const u32,
        tot: *const u32,
        m: usize,
        cycle: u32,
        lower: u32,
        wire: u32,
        period: u32,
        jitter: u32,
    ) -> u32;
}

// Stairs as the desk stores them: rows of 993 places.
pub struct Table {
    pub far: [u32; 993],
    pub tot: [u32; 993],
    pub m: usize,
}

pub fn table(s: &Stairs) -> Table {
    let mut t = Table { far: [0; 993], tot: [0; 993], m: s.far.len() };
    t.far[..t.m].copy_from_slice(&s.far);
    t.tot[..t.m].copy_from_slice(&s.tot);
    t
}

impl Question {
    // The bound by the proved core, none where the stream is endless.
    pub fn proved(&self, cycle: u32, t: &Table) -> Option<u64> {
        let r = unsafe {
            speed_bound(
                self.period.as_ptr(),
                self.jitter.as_ptr(),
                self.cost.as_ptr(),
                self.n,
                t.far.as_ptr(),
                t.tot.as_ptr(),
                t.m,
                cycle,
                self.lower,
                self.own_cost,
                self.own_period,
                self.own_jitter,
            )
        };
        if r == 1_000_000_000 { None } else { Some(r as u64) }
    }
}
