//! The plans that are timed, and a pair of desks that hold one.
use ghritpoma::{Desk, MOST_OCTETS};
use reference::{samples, Mode, Slot, Stream};

pub const FAST: Mode = Mode::Fast;

/// The same plan on both sides.
pub struct Both {
    pub core: Desk,
    pub model: reference::Desk,
}

/// The number of an answer, and the bound that 13 carries.
pub type Told<T> = Result<T, (u64, u64)>;

pub fn core_told<T>(answer: Result<T, ghritpoma::Refusal>) -> Told<T> {
    answer.map_err(|refusal| match refusal {
        ghritpoma::Refusal::Late { bound } => (13, bound),
        other => (other.number(), 0),
    })
}

pub fn model_told<T>(answer: Result<T, reference::Refusal>) -> Told<T> {
    answer.map_err(|refusal| match refusal {
        reference::Refusal::Late(bound) => (13, bound),
        other => (other.number(), 0),
    })
}

impl Both {
    pub fn read(plan: &[u8]) -> Both {
        let (model, answer) = reference::read(FAST, plan);
        answer.expect("a good plan");
        let both = Both { core: Desk::read(plan).expect("a good plan"), model };
        both.agree();
        both
    }

    /// Both hold the same port, slots, streams and stairs.
    pub fn agree(&self) {
        let mut room = [0; MOST_OCTETS];
        let mut other = [0; MOST_OCTETS];
        let count = self.core.write(&mut room).expect("an open desk");
        assert_eq!(self.model.clone().write(&mut other).1, Ok(count));
        assert_eq!(room, other);
        let core: Vec<_> = self.core.stairs().expect("an open desk").iter().map(|s| (s.distance, s.total)).collect();
        let model = self.model.clone().stairs(FAST).1.expect("an open desk");
        assert_eq!(core, model.iter().map(|s| (s.distance, s.total)).collect::<Vec<_>>());
    }

    pub fn stairs(&self) -> usize {
        self.core.stairs().expect("an open desk").len()
    }
}

pub fn open(desk: &reference::Desk) -> &reference::Open {
    match desk {
        reference::Desk::Open(open) => open,
        reference::Desk::Bare => panic!("a bare desk"),
    }
}

pub fn octets(desk: reference::Desk) -> Vec<u8> {
    let mut room = vec![0; MOST_OCTETS];
    let count = desk.write(&mut room).1.expect("an open desk");
    room.truncate(count);
    room
}

pub fn sample(name: &str) -> Vec<u8> {
    samples::all().into_iter().find(|sample| sample.name == name).expect("a sample").plan
}

/// Stream k of 64: all priorities, bounded, and about a third of them late.
fn stream(k: u64) -> Stream {
    Stream {
        id: k * 1_021,
        priority: k * 5 % 8,
        octets: 64 + k * 97 % 1_400,
        period: 20_000_000 + k * 1_234_567 % 60_000_000,
        jitter: k % 4 * 5_000_000,
        deadline: (k % 3 + 1) * 6_000_000,
    }
}

/// The slots of the sample with the most stairs of all, the first so many, and so many streams.
pub fn plan(slots: usize, streams: u64) -> reference::Desk {
    let (desk, _) = reference::read(FAST, &sample("most-stairs-of-32-runs"));
    let port = open(&desk).port;
    let held: Vec<Slot> = open(&desk).slots[..slots].to_vec();
    let (mut next, _) = reference::Desk::Bare.open_port(port);
    for slot in held {
        next = next.add_slot(FAST, slot).0;
    }
    for k in 0..streams {
        next = next.add_stream(stream(k)).0;
    }
    next
}
