//! Ratios of times in one run: the programs that are compared take short turns, round after round. Each round gives a ratio, and the
//! median counts.

use std::fs::read_to_string;
use std::hint::black_box;
use std::time::{Duration, Instant};

/// A turn is short, so that few are broken into by other work on the machine.
const TURN: Duration = Duration::from_micros(400);
/// What some rounds may take for each work.
const BUDGET: Duration = Duration::from_millis(12);
/// How often there are some rounds more where works are measured at one go.
const TIMES: u32 = 12;

/// A piece of work: done so many times, it gives the time that took.
pub type Work<'a> = Box<dyn Fn(u32) -> Duration + 'a>;

/// How long this thread has waited for a processor so far, which Linux says in nanoseconds; 0 where nothing says it.
fn waited() -> Duration {
    let says = read_to_string("/proc/thread-self/schedstat").unwrap_or_default();
    let nanoseconds = says.split_whitespace().nth(1).and_then(|field| field.parse().ok());
    Duration::from_nanos(nanoseconds.unwrap_or(0))
}

/// The time of a work, without what it waited while others had the processor.
pub fn work<'a, R>(one: impl Fn() -> R + 'a) -> Work<'a> {
    Box::new(move |times| {
        let before = waited();
        let start = Instant::now();
        for _ in 0..times {
            black_box(one());
        }
        let taken = start.elapsed();
        taken.saturating_sub(waited().saturating_sub(before))
    })
}

/// How many times a work is done in a turn.
fn times_in_turn(work: &Work) -> u32 {
    let mut times = 1;
    while work(times) < TURN && times < 1 << 24 {
        times *= 2;
    }
    times
}

/// The time of doing each work once, round after round.
#[derive(Default)]
pub struct Rounds(Vec<Vec<f64>>);

impl Rounds {
    pub fn of(works: &[Work]) -> Rounds {
        let mut rounds = Rounds::default();
        for _ in 0..TIMES {
            rounds.go_on(works);
        }
        rounds
    }

    /// Some rounds more, at least four, however long the works are. Before each turn the work has one that does not count: else a work
    /// would gain where the one before it runs the same code, of which the processor has then learnt the branches.
    pub fn go_on(&mut self, works: &[Work]) {
        let times: Vec<u32> = works.iter().map(times_in_turn).collect();
        let once = |(work, &times): (&Work, &u32)| {
            work(times);
            work(times).as_secs_f64() / f64::from(times)
        };
        let start = Instant::now();
        let before = self.0.len();
        while self.0.len() < before + 4 || start.elapsed() < BUDGET * works.len() as u32 {
            self.0.push(works.iter().zip(&times).map(once).collect());
        }
    }

    /// The time of one work over that of another: the median of the rounds' ratios. What slows the machine down for some time slows both
    /// turns of a round.
    pub fn ratio(&self, of: usize, over: usize) -> f64 {
        let mut ratios: Vec<f64> = self.0.iter().map(|round| round[of] / round[over]).collect();
        ratios.sort_unstable_by(f64::total_cmp);
        ratios[ratios.len() / 2]
    }
}
