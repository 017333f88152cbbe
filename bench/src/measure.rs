//! Runs a case on one server: for times, for counts, and for seeing that all servers do the same.

use crate::cases::{self, Case, Work};
use crate::service::{Service, Told};
use std::hint::black_box;

/// One case on one server.
pub trait Run {
    fn name(&self) -> &'static str;
    /// Repeats the case's work.
    fn repeat(&mut self, cycles: u32);
    /// The work once, with what each call tells and the output after it.
    fn trace(&mut self) -> Vec<(Told, Vec<u8>)>;
}

struct Running<'a, S: Service> {
    server: S,
    case: &'a Case,
    out: Vec<u8>,
}

/// A server of one kind in the case's state; its output slice is not cleared between calls.
pub fn running<'a, S: Service + 'a>(case: &'a Case) -> Box<dyn Run + 'a> {
    let mut server = S::start(&cases::zone()).unwrap_or_else(|number| panic!("{} refuses with {number}", S::NAME));
    let mut out = cases::output();
    for call in &case.setup {
        let told = S::told(&server.call(call, &mut out));
        assert!(matches!(told.number, 1 | 2), "{}, {}: a call answered with {}", S::NAME, case.state, told.number);
    }
    Box::new(Running { server, case, out })
}

/// What is timed and counted: callgrind knows it by this name.
#[inline(never)]
fn measured_region<S: Service>(server: &mut S, work: &Work, out: &mut [u8], cycles: u32) {
    for _ in 0..cycles {
        match work {
            Work::Calls(calls) => {
                for call in calls {
                    black_box(server.call(black_box(call), out));
                }
            }
            Work::Kinds(messages) => {
                for message in messages {
                    black_box(S::kind(black_box(message)));
                }
            }
        }
    }
}

impl<S: Service> Run for Running<'_, S> {
    fn name(&self) -> &'static str {
        S::NAME
    }

    fn repeat(&mut self, cycles: u32) {
        measured_region(&mut self.server, &self.case.work, &mut self.out, cycles);
    }

    fn trace(&mut self) -> Vec<(Told, Vec<u8>)> {
        match &self.case.work {
            Work::Calls(calls) => {
                let mut one = |call| (S::told(&self.server.call(call, &mut self.out)), self.out.clone());
                calls.iter().map(&mut one).collect()
            }
            Work::Kinds(messages) => {
                let told = |message: &Vec<u8>| Told { number: S::kind(message), values: [0; 8] };
                messages.iter().map(|message| (told(message), Vec::new())).collect()
            }
        }
    }
}

/// Every server does the same in a case, and its work brings it back to where it began: two cycles more are alike.
pub fn check(case: &Case, runs: &mut [Box<dyn Run + '_>]) {
    let mut first = None;
    for run in runs {
        run.repeat(2);
        let trace = run.trace();
        assert!(trace == run.trace(), "{}: '{}' on '{}' does not come back", run.name(), case.call, case.state);
        match &first {
            None => first = Some(trace),
            // An earlier build may do otherwise, by rules that have changed since: that is said, and it is measured all the same.
            #[cfg(feature = "before")]
            Some(other) if run.name() == "before" => {
                if *other != trace {
                    eprintln!("before: '{}' on '{}' is answered otherwise", case.call, case.state);
                }
            }
            Some(other) => {
                assert!(*other == trace, "{}: '{}' on '{}' is answered otherwise", run.name(), case.call, case.state)
            }
        }
    }
}

/// `struct timespec` of 64-bit Linux.
#[repr(C)]
struct Timespec {
    seconds: i64,
    nanoseconds: i64,
}

const CLOCK_THREAD_CPUTIME_ID: i32 = 3;

extern "C" {
    fn clock_gettime(clock: i32, time: *mut Timespec) -> i32;
}

/// The processor time of this thread in nanoseconds: what other programs take of the processor is not in it.
fn processor_time() -> f64 {
    let mut time = Timespec { seconds: 0, nanoseconds: 0 };
    // SAFETY: C's clock_gettime writes the struct that it is lent.
    let status = unsafe { clock_gettime(CLOCK_THREAD_CPUTIME_ID, &mut time) };
    assert_eq!(status, 0, "the thread has a clock");
    time.seconds as f64 * 1e9 + time.nanoseconds as f64
}

/// Nanoseconds a call takes on each server, for each round; the servers take turns in every round.
pub fn times(case: &Case, runs: &mut [Box<dyn Run + '_>], rounds: usize, sample_ns: f64) -> Vec<Vec<f64>> {
    let calls = case.work.len() as f64;
    let sample = |run: &mut Box<dyn Run + '_>, cycles: u32| {
        let start = processor_time();
        run.repeat(cycles);
        processor_time() - start
    };
    let cycles: Vec<u32> = runs
        .iter_mut()
        .map(|run| {
            let mut cycles = 1;
            loop {
                let took = sample(run, cycles);
                if took * 4.0 >= sample_ns || cycles >= 1 << 24 {
                    return ((f64::from(cycles) * sample_ns / took.max(1.0)).ceil() as u32).max(1);
                }
                cycles *= 2;
            }
        })
        .collect();
    let mut found = vec![Vec::with_capacity(rounds); runs.len()];
    for _ in 0..rounds {
        for (index, run) in runs.iter_mut().enumerate() {
            found[index].push(sample(run, cycles[index]) / (f64::from(cycles[index]) * calls));
        }
    }
    found
}

/// The value that so great a part of the values is below.
pub fn quantile(values: &[f64], part: f64) -> f64 {
    let mut sorted = values.to_vec();
    sorted.sort_by(f64::total_cmp);
    sorted[((sorted.len() - 1) as f64 * part).round() as usize]
}
