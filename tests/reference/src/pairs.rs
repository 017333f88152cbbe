//! Random pairs of runs through a child process: the chosen session gets the same in both, whatever other sessions send.

use crate::child::{at_once, hear};
use crate::isolation::{self, compare};
use crate::narrow::leave_out;
use crate::pair::{text, Runs, Step};
use crate::pair_runs;
use crate::pair_tally::{Group, PairTally};
use crate::player::Language;
use crate::printed::{self, Printed};
use std::io;
use std::time::{Duration, Instant};

/// So many more pairs may be left out than are compared.
const MOST_LEFT_OUT: u64 = 100;

/// What is compared: a child with itself, the command that starts it, and the lines that it reads.
pub struct Pairs {
    pub language: Language,
    pub child: Vec<String>,
}

/// Pairs without a difference.
pub struct Agreement {
    pub pairs: u64,
    pub tally: PairTally,
    pub time: Duration,
}

/// What is wrong with a pair.
#[derive(Clone, Debug, PartialEq, Eq)]
pub enum Fault {
    /// The session gets something else.
    Other(isolation::Difference),
    /// A run's child failed, or what it printed cannot be read.
    Failed { run: usize, why: String },
}

/// A pair that shows a difference.
pub struct Difference {
    seed: u64,
    /// How many calls were compared before it, over all pairs.
    calls: u64,
    steps: Vec<Step>,
    fault: Fault,
    /// What is left of the steps when those that can be are left out, and the difference there.
    fewer: Vec<Step>,
    shortest: Fault,
}

impl Pairs {
    /// Pairs from a seed on until so many calls are compared.
    pub fn run(&self, seed: u64, calls: u64) -> io::Result<Result<Agreement, Box<Difference>>> {
        let begun = Instant::now();
        let (mut pairs, mut tally) = (0, PairTally::default());
        while tally.calls < calls {
            for (steps, found) in at_once(seed.wrapping_add(pairs), |seed| self.one(seed))? {
                match found {
                    Ok(found) => tally.add(&found),
                    Err(fault) => {
                        let difference = self.narrow(seed.wrapping_add(pairs), tally.calls, steps, fault)?;
                        return Ok(Err(Box::new(difference)));
                    }
                }
                pairs += 1;
            }
            let left_out = tally.count(Group::Left, "pairs without one number for the session", None);
            if left_out > MOST_LEFT_OUT + (pairs - left_out) {
                return Err(io::Error::other("most pairs show nothing: the session's open gives two numbers"));
            }
        }
        Ok(Ok(Agreement { pairs, tally, time: begun.elapsed() }))
    }

    fn one(&self, seed: u64) -> io::Result<(Vec<Step>, Result<PairTally, Fault>)> {
        let made = pair_runs::random(self.language, seed);
        let found = self.judge(&made.steps)?.map(|mut tally| {
            tally.note_many(Group::Left, "opens passed over", None, made.rechosen);
            tally
        });
        Ok((made.steps, found))
    }

    /// Gives both runs to the child and holds what the session gets in one to what it gets in the other.
    fn judge(&self, steps: &[Step]) -> io::Result<Result<PairTally, Fault>> {
        let both = [self.hear(steps, 0)?, self.hear(steps, 1)?];
        Ok(match both {
            [Ok(first), Ok(second)] => compare(steps, [&first, &second]).map_err(Fault::Other),
            [Err(why), _] => Err(Fault::Failed { run: 0, why }),
            [_, Err(why)] => Err(Fault::Failed { run: 1, why }),
        })
    }

    /// What the child prints for each step of a run, or how it failed.
    fn hear(&self, steps: &[Step], run: usize) -> io::Result<Result<Vec<Vec<Printed>>, String>> {
        let heard = hear(&self.child, &text(steps, run))?;
        Ok(match heard.complaint {
            Some(complaint) => Err(complaint + "\n"),
            None => printed::read(steps, run, &heard.output),
        })
    }

    fn narrow(&self, seed: u64, calls: u64, steps: Vec<Step>, fault: Fault) -> io::Result<Difference> {
        let mut fewer = steps.clone();
        if let Fault::Other(difference) = &fault {
            fewer.truncate(difference.step + 1);
        }
        leave_out(&mut fewer, |steps| Ok(self.judge(steps)?.is_err()))?;
        let shortest = self.judge(&fewer)?.err().unwrap_or_else(|| fault.clone());
        Ok(Difference { seed, calls, steps, fault, fewer, shortest })
    }
}

impl Agreement {
    pub fn report(&self, seed: u64) -> String {
        let (calls, seconds) = (self.tally.calls, self.time.as_secs_f64());
        format!(
            "seeds {seed} to {}: {} pairs, {calls} calls compared, no difference; {seconds:.1} s, {:.0} calls a second\n{}",
            seed.wrapping_add(self.pairs).wrapping_sub(1),
            self.pairs,
            calls as f64 / seconds,
            self.tally.report()
        )
    }
}

impl Difference {
    /// What differs, and the lines that show it; these may hold any bytes.
    pub fn report(&self) -> Vec<u8> {
        let place = match &self.fault {
            Fault::Other(found) => {
                format!("session {}, line {} of {}", found.session, found.step + 1, self.steps.len())
            }
            Fault::Failed { run, .. } => format!("run {} of {} lines", run + 1, self.steps.len()),
        };
        let head = format!(
            "difference: seed {}, {place}, after {} calls that agree\n{}the lines show a difference; so do these {}, of which \
             none can be left out (= of both runs, 1 of the first, 2 of the second, * the open of the session):\n",
            self.seed,
            self.calls,
            written(&self.fault, &self.steps),
            self.fewer.len(),
        );
        let lines: Vec<u8> =
            self.fewer.iter().flat_map(|step| [mark(step), b"\t", &step.line, b"\n"].concat()).collect();
        [head.into_bytes(), lines, written(&self.shortest, &self.fewer).into_bytes()].concat()
    }
}

fn mark(step: &Step) -> &'static [u8] {
    match step.runs {
        Runs::Both if step.chosen => b"*",
        Runs::Both => b"=",
        Runs::First => b"1",
        Runs::Second => b"2",
    }
}

/// What a session got in each run, and of which line.
fn written(fault: &Fault, steps: &[Step]) -> String {
    let or_nothing = |got: &str| if got.is_empty() { "nothing\n".to_string() } else { got.to_string() };
    match fault {
        Fault::Failed { run, why } => format!("in run {}: {why}", run + 1),
        Fault::Other(found) => format!(
            "line  {}\nrun 1 {}run 2 {}",
            String::from_utf8_lossy(&steps[found.step].line),
            or_nothing(&found.got[0]),
            or_nothing(&found.got[1])
        ),
    }
}
