//! The processor time of two sides, measured in turns.

use std::time::Duration;

#[repr(C)]
struct Timespec {
    seconds: i64,
    nanoseconds: i64,
}

extern "C" {
    fn clock_gettime(clock: i32, time: *mut Timespec) -> i32;
}

/// The processor time of this thread (clock 3): what other programs take of the machine does not count.
fn now() -> Duration {
    let mut time = Timespec { seconds: 0, nanoseconds: 0 };
    let failed = unsafe { clock_gettime(3, &mut time) };
    assert_eq!(failed, 0, "no clock");
    Duration::new(time.seconds as u64, time.nanoseconds as u32)
}

/// The time that was spent in what it was given to run.
#[derive(Default)]
pub struct Clock {
    spent: Duration,
}

impl Clock {
    pub fn time<T>(&mut self, run: impl FnOnce() -> T) -> T {
        let begun = now();
        let result = run();
        self.spent += now() - begun;
        result
    }
}

/// One task that two sides do. Each run gives to the clock what counts, and keeps its answer.
pub trait Pair {
    fn ours(&mut self, clock: &mut Clock);
    fn rust(&mut self, clock: &mut Clock);
    /// Stops the program if the last answers of the two sides differ.
    fn compare(&self);
}

/// What a run of each side took, in the median of the rounds, and how many times as fast as the Rust ours is: median, least, greatest of the rounds.
pub struct Times {
    pub ours: f64,
    pub rust: f64,
    pub ratio: [f64; 3],
}

/// How long a side runs in a round, at least.
const LEAST: Duration = Duration::from_millis(200);

/// Seconds for each run of a side.
fn turn(mut run: impl FnMut(&mut Clock)) -> f64 {
    let mut clock = Clock::default();
    let mut runs = 0;
    while clock.spent < LEAST {
        run(&mut clock);
        runs += 1;
    }
    clock.spent.as_secs_f64() / f64::from(runs)
}

fn median(values: &mut [f64]) -> f64 {
    values.sort_by(f64::total_cmp);
    values[values.len() / 2]
}

/// The sides take turns, and which of them is first changes from round to round. A round before these is not counted.
pub fn measure(pair: &mut dyn Pair, rounds: usize) -> Times {
    let (mut ours, mut rust, mut ratio) = (Vec::new(), Vec::new(), Vec::new());
    for round in 0..=rounds {
        let (a, b);
        if round % 2 == 0 {
            a = turn(|clock| pair.ours(clock));
            b = turn(|clock| pair.rust(clock));
        } else {
            b = turn(|clock| pair.rust(clock));
            a = turn(|clock| pair.ours(clock));
        }
        pair.compare();
        if round > 0 {
            ours.push(a);
            rust.push(b);
            ratio.push(b / a);
        }
    }
    let middle = median(&mut ratio);
    Times { ours: median(&mut ours), rust: median(&mut rust), ratio: [middle, ratio[0], ratio[rounds - 1]] }
}
