//! Times of calls.
use std::time::{Duration, Instant};

const REPETITIONS: usize = 100;
/// Long calls are repeated fewer times: up to this time for a row, but not fewer times than this.
const LIMIT: Duration = Duration::from_secs(3);
const FEWEST: usize = 3;
/// How long a repetition takes at least.
const STRETCH: Duration = Duration::from_millis(1);

type Call<'a> = &'a mut dyn FnMut();

/// Nanoseconds a call for each: the least of the repetitions, in which the calls take turns. The least, for other work on the
/// machine only adds.
pub fn times<const N: usize>(mut calls: [Call; N]) -> [f64; N] {
    let rounds = calls.each_mut().map(rounds);
    let mut least = [f64::INFINITY; N];
    let started = Instant::now();
    for repetition in 0..REPETITIONS {
        if repetition >= FEWEST && started.elapsed() > LIMIT {
            break;
        }
        for ((call, &rounds), least) in calls.iter_mut().zip(&rounds).zip(&mut least) {
            let took = stretch(call, rounds).as_secs_f64() * 1e9 / f64::from(rounds);
            *least = least.min(took);
        }
    }
    least
}

/// How many rounds take long enough to be timed.
fn rounds(call: &mut Call) -> u32 {
    let mut rounds = 1;
    while stretch(call, rounds) < STRETCH {
        rounds *= 2;
    }
    rounds
}

fn stretch(call: &mut Call, rounds: u32) -> Duration {
    let started = Instant::now();
    for _ in 0..rounds {
        call();
    }
    started.elapsed()
}
