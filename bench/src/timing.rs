//! Timing in interleaved rounds, by processor time, so that other processes disturb it less.

use std::hint::black_box;
use std::time::Duration;

/// Nanoseconds for a call.
#[derive(Clone, Copy)]
pub struct Time {
    pub best: f64,
    pub median: f64,
}

/// How long a batch of calls lasts at least, and how many rounds there are.
#[derive(Clone, Copy)]
pub struct Plan {
    pub batch: Duration,
    pub rounds: usize,
}

/// Times each job, a batch of one after a batch of the other, round by round.
pub fn race<const K: usize>(plan: Plan, mut jobs: [impl FnMut(usize); K]) -> [Time; K] {
    let mut calls = [1; K];
    for (job, calls) in jobs.iter_mut().zip(&mut calls) {
        loop {
            let spent = timed(job, *calls, 0);
            if spent >= plan.batch {
                break;
            }
            let factor = plan.batch.as_secs_f64() / spent.as_secs_f64().max(1e-9) * 1.2;
            *calls = (*calls as f64 * factor.clamp(1.5, 100.0)).ceil() as usize;
        }
    }
    let mut samples: [Vec<f64>; K] = std::array::from_fn(|_| Vec::new());
    for round in 0..plan.rounds {
        for k in 0..K {
            let spent = timed(&mut jobs[k], calls[k], round % PLACES);
            samples[k].push(spent.as_secs_f64() * 1e9 / calls[k] as f64);
        }
    }
    samples.map(summary)
}

/// The rounds begin at so many places in the stack, 1 KB apart. Where the stack lies beside what is read changes the time of a call: a check of
/// eight states took 410 or 680 ns.
const PLACES: usize = 4;

fn timed(job: &mut impl FnMut(usize), calls: usize, place: usize) -> Duration {
    let start = now();
    deeper(job, calls, place);
    now() - start
}

#[inline(never)]
fn deeper(job: &mut impl FnMut(usize), calls: usize, place: usize) {
    let mut room = [0_u8; 960];
    black_box(&mut room);
    match place {
        0 => job(calls),
        _ => deeper(job, calls, place - 1),
    }
    black_box(&mut room);
}

#[repr(C)]
struct Moment {
    seconds: i64,
    nanoseconds: i64,
}

extern "C" {
    fn clock_gettime(clock: i32, moment: *mut Moment) -> i32;
}

/// The thread's processor time on Linux.
const THREAD_TIME: i32 = 3;

fn now() -> Duration {
    let mut moment = Moment { seconds: 0, nanoseconds: 0 };
    // SAFETY: the C library, which std links, fills in the moment.
    let status = unsafe { clock_gettime(THREAD_TIME, &mut moment) };
    assert_eq!(status, 0, "the thread's clock cannot be read");
    Duration::new(moment.seconds as u64, moment.nanoseconds as u32)
}

fn summary(mut samples: Vec<f64>) -> Time {
    samples.sort_by(f64::total_cmp);
    Time { best: samples[0], median: samples[samples.len() / 2] }
}
