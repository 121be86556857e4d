//! Times of calls.

use std::time::{Duration, Instant};

/// Something to be timed.
pub trait Work {
    /// Makes the buffers ready; not timed.
    fn prepare(&mut self) {}
    /// Some calls, one after the other.
    fn work(&mut self);
}

impl<F: FnMut()> Work for F {
    fn work(&mut self) {
        self();
    }
}

/// The least time of one call for each of these, in nanoseconds. They take turns, so that all meet
/// the same machine; the least is taken since other programs only add.
pub fn least<const N: usize>(mut works: [&mut Box<dyn Work>; N], calls: usize) -> [f64; N] {
    let budget = Duration::from_millis(900);
    let mut least = [f64::INFINITY; N];
    let begun = Instant::now();
    let mut turns = 0;
    while turns < 5 || begun.elapsed() < budget {
        for (work, least) in works.iter_mut().zip(&mut least) {
            work.prepare();
            let begun = Instant::now();
            work.work();
            let each = begun.elapsed().as_nanos() as f64 / calls as f64;
            *least = least.min(each);
        }
        turns += 1;
    }
    least
}
