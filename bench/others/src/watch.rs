//! A stopwatch that adds up nanoseconds and takes off what reading the clock costs by itself.

use std::time::Instant;

pub struct Watch {
    total: f64,
    clock_cost: f64,
}

impl Watch {
    pub fn new() -> Watch {
        let mut watch = Watch { total: 0.0, clock_cost: 0.0 };
        let mut least = f64::INFINITY;
        for _ in 0..100_000 {
            watch.time(|| ());
            least = least.min(watch.take());
        }
        watch.clock_cost = least;
        watch
    }

    /// Does the call, and adds its time.
    pub fn time<R>(&mut self, call: impl FnOnce() -> R) -> R {
        let began = Instant::now();
        let result = call();
        self.total += began.elapsed().as_nanos() as f64 - self.clock_cost;
        result
    }

    /// The time added up since the last taking.
    pub fn take(&mut self) -> f64 {
        std::mem::replace(&mut self.total, 0.0)
    }
}
