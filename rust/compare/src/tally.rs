//! What was compared, counted.
use console::Call;

/// Counts of cases and calls. A look at both desks after an edit is not counted.
#[derive(Default)]
pub struct Tally {
    plans: u64,
    sequences: u64,
    /// Plans accepted, those within sequences included.
    read: u64,
    calls: u64,
    /// Calls and looks that the model answered cell by cell and number by number.
    pub brute: u64,
    /// Replies by number, 0 where accepted.
    numbers: [u64; 15],
    /// The most slots, runs, stairs and streams of one desk.
    most: [usize; 4],
}

impl Tally {
    /// Counts a case at its end.
    pub fn case(&mut self, sequence: bool) {
        self.plans += u64::from(!sequence);
        self.sequences += u64::from(sequence);
    }

    /// Counts a call and the number that both replied.
    pub fn count(&mut self, call: &Call, number: u64) {
        self.calls += 1;
        self.read += u64::from(number == 0 && matches!(call, Call::Read(_)));
        self.numbers[number as usize] += 1;
    }

    pub fn cases(&self) -> u64 {
        self.plans + self.sequences
    }

    /// Marks how much an open desk holds.
    pub fn mark(&mut self, held: [usize; 4]) {
        for (most, held) in self.most.iter_mut().zip(held) {
            *most = held.max(*most);
        }
    }

    /// The refusals that did not occur.
    pub fn missing(&self) -> Vec<usize> {
        (1..=14).filter(|&number| self.numbers[number] == 0).collect()
    }

    /// All counts, a line each.
    pub fn print(&self) {
        let refused = (1..=14).map(|number| format!(" {number}: {}", self.numbers[number]));
        let Tally { plans, sequences, calls, read, brute, .. } = self;
        println!("compare: {plans} plans, {sequences} sequences of calls, {calls} calls, {read} plans accepted");
        println!("compare: {brute} answers of the model cell by cell");
        println!("compare: {} accepted; refused by number:{}", self.numbers[0], refused.collect::<String>());
        let [slots, runs, stairs, streams] = self.most;
        println!("compare: at most {slots} slots, {runs} runs, {stairs} stairs and {streams} streams on a desk");
        if self.missing().is_empty() {
            println!("compare: every number from 1 to 14 occurred");
        }
    }
}
