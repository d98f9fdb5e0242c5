//! Times of several ways to do the same work, as ratios within one run.
//!
//! In each round every way has its turn, so that whatever else the machine does falls on all of
//! them alike. A ratio is taken within the round, and the median over the rounds counts; or the best
//! time of each way, or its median, where a call is short and finds the same at each time.

use std::time::{Duration, Instant};

/// One way to do the work: a call does it once.
pub type Work<'a> = Box<dyn FnMut() + 'a>;

/// The time of each way in each round.
pub struct Times(Vec<Vec<Duration>>);

/// Times the ways over `rounds` rounds.
///
/// In a turn the work is done twice and the second time counts: code and tables are then in the
/// cache again. Each round begins with another way.
pub fn run(mut ways: Vec<Work>, rounds: usize) -> Times {
    let mut times = vec![Vec::with_capacity(rounds); ways.len()];
    for round in 0..rounds {
        for turn in 0..ways.len() {
            let at = (round + turn) % ways.len();
            ways[at]();
            let start = Instant::now();
            ways[at]();
            times[at].push(start.elapsed());
        }
    }
    Times(times)
}

/// One way to do the work, and what has to be done before each time and is not timed.
pub struct Way<'a> {
    /// Makes ready.
    pub ready: Work<'a>,
    /// Does the work once.
    pub work: Work<'a>,
}

/// Times the ways over `rounds` rounds, `turns` times each in a round. The first of each turn is not
/// counted.
pub fn run_ready(ways: &mut [Way], rounds: usize, turns: usize) -> Times {
    let mut times = vec![Vec::with_capacity(rounds * turns); ways.len()];
    for round in 0..rounds {
        for turn in 0..ways.len() {
            let at = (round + turn) % ways.len();
            for time in 0..=turns {
                (ways[at].ready)();
                let start = Instant::now();
                (ways[at].work)();
                let took = start.elapsed();
                if time > 0 {
                    times[at].push(took);
                }
            }
        }
    }
    Times(times)
}

impl Times {
    /// The best time of a way, in nanoseconds.
    pub fn best(&self, at: usize) -> f64 {
        let best = self.0[at].iter().min().expect("every way was timed");
        best.as_secs_f64() * 1e9
    }

    /// The best time of way `a` over that of way `b`.
    pub fn best_ratio(&self, a: usize, b: usize) -> f64 {
        self.best(a) / self.best(b)
    }

    /// The median time of way `a` over that of way `b`.
    pub fn median_ratio(&self, a: usize, b: usize) -> f64 {
        let [a, b] =
            [a, b].map(|at| median(self.0[at].iter().map(Duration::as_secs_f64).collect()));
        a / b
    }

    /// The time of way `a` over that of way `b`.
    pub fn ratio(&self, a: usize, b: usize) -> f64 {
        let ratios = self.0[a].iter().zip(&self.0[b]);
        median(ratios.map(|(a, b)| a.as_secs_f64() / b.as_secs_f64()).collect())
    }
}

/// The median of a list that is not empty.
fn median(mut numbers: Vec<f64>) -> f64 {
    numbers.sort_by(f64::total_cmp);
    numbers[numbers.len() / 2]
}

#[cfg(test)]
mod tests {
    use super::{run, run_ready, Times, Way, Work};
    use std::cell::Cell;
    use std::time::Duration;

    #[test]
    fn a_ratio_is_the_median_over_the_rounds() {
        let times = |rounds: [u64; 3]| rounds.map(Duration::from_millis).to_vec();
        let times = Times(vec![times([10, 90, 30]), times([40, 60, 60])]);
        assert_eq!(times.ratio(0, 1), 0.5);
        assert_eq!(times.ratio(1, 0), 2.0);
        assert_eq!(times.ratio(1, 1), 1.0);
    }

    #[test]
    fn every_way_has_a_time_in_each_round() {
        let calls = Cell::new(0);
        let way = || -> Work { Box::new(|| calls.set(calls.get() + 1)) };
        let times = run(vec![way(), way()], 5);
        assert_eq!(calls.get(), 2 * 2 * 5);
        assert!(times.0.iter().all(|rounds| rounds.len() == 5));
    }

    #[test]
    fn a_best_ratio_is_that_of_the_shortest_times() {
        let times = |rounds: [u64; 3]| rounds.map(Duration::from_millis).to_vec();
        let times = Times(vec![times([10, 90, 30]), times([60, 40, 60])]);
        assert_eq!(times.best_ratio(0, 1), 0.25);
    }

    #[test]
    fn a_median_ratio_is_that_of_the_middle_times() {
        let times = |rounds: [u64; 3]| rounds.map(Duration::from_millis).to_vec();
        let times = Times(vec![times([10, 90, 30]), times([60, 40, 70])]);
        assert_eq!(times.median_ratio(0, 1), 0.5);
    }

    #[test]
    fn every_time_is_made_ready() {
        let (ready, work) = (Cell::new(0), Cell::new(0));
        let way = || Way {
            ready: Box::new(|| ready.set(ready.get() + 1)),
            work: Box::new(|| work.set(work.get() + 1)),
        };
        let times = run_ready(&mut [way(), way()], 5, 3);
        assert_eq!((ready.get(), work.get()), (2 * 5 * 4, 2 * 5 * 4));
        assert!(times.0.iter().all(|times| times.len() == 5 * 3));
    }
}
