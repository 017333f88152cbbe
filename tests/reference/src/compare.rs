//! Random runs through a child process that speaks the replay language, held line by line to this server.

use crate::child::{at_once, hear};
use crate::line_runs::Run;
use crate::narrow::leave_out;
use crate::player::Language;
use crate::tally::Tally;
use std::io;
use std::time::{Duration, Instant};

const LINES_PER_RUN: usize = 1_000;

/// What is compared: a child, the command that starts it, and the lines that it reads.
pub struct Comparison {
    pub language: Language,
    pub child: Vec<String>,
}

/// Runs without a difference.
pub struct Agreement {
    pub runs: u64,
    pub tally: Tally,
    pub time: Duration,
}

/// Where a child first says something else.
#[derive(Clone, Debug, PartialEq, Eq)]
struct Place {
    line: usize,
    expected: String,
    found: String,
}

/// A run that shows a difference.
pub struct Difference {
    seed: u64,
    /// How many lines were the same before it, over all runs.
    calls: u64,
    place: Place,
    /// The first so many lines of the run are the shortest beginning that shows a difference.
    prefix: usize,
    /// What is left of them when those that can be are left out, and the difference there.
    lines: Vec<Vec<u8>>,
    shortest: Place,
}

impl Comparison {
    /// Runs from a seed on until so many calls are compared.
    pub fn run(&self, seed: u64, calls: u64) -> io::Result<Result<Agreement, Box<Difference>>> {
        let begun = Instant::now();
        let (mut runs, mut tally) = (0, Tally::default());
        while tally.calls() < calls {
            for (run, place) in self.several(seed.wrapping_add(runs))? {
                if let Some(place) = place {
                    return Ok(Err(Box::new(self.narrow(seed.wrapping_add(runs), runs, run, place)?)));
                }
                tally.add(&run.tally);
                runs += 1;
            }
        }
        Ok(Ok(Agreement { runs, tally, time: begun.elapsed() }))
    }

    /// Runs from a seed on, as many at once as the machine can, each with its first difference.
    fn several(&self, seed: u64) -> io::Result<Vec<(Run, Option<Place>)>> {
        let one = |seed: u64| {
            let run = Run::random(self.language, seed, LINES_PER_RUN);
            let place = self.difference(&run)?;
            Ok((run, place))
        };
        at_once(seed, one)
    }

    /// The first line to which the child says something else.
    fn difference(&self, run: &Run) -> io::Result<Option<Place>> {
        let heard = hear(&self.child, &run.text())?;
        let mut rest = &heard.output[..];
        for (line, expected) in run.expected.iter().enumerate() {
            let Some(after) = rest.strip_prefix(expected.as_bytes()) else {
                let found = said(rest, expected.lines().count(), heard.complaint.as_deref());
                return Ok(Some(Place { line, expected: expected.clone(), found }));
            };
            rest = after;
        }
        if rest.is_empty() && heard.complaint.is_none() {
            return Ok(None);
        }
        let found = said(rest, 1, heard.complaint.as_deref());
        Ok(Some(Place { line: run.lines.len(), expected: String::new(), found }))
    }

    /// The difference in the first `length` of the lines.
    fn within(&self, run: &Run, length: usize) -> io::Result<Option<Place>> {
        let ended = run.ended || length < run.lines.len();
        self.difference(&Run::of(self.language, run.lines[..length].to_vec(), ended))
    }

    fn narrow(&self, seed: u64, runs: u64, run: Run, place: Place) -> io::Result<Difference> {
        let prefix = self.shortest_prefix(&run, place.line)?;
        let ended = run.ended || prefix < run.lines.len();
        let mut lines = run.lines[..prefix].to_vec();
        leave_out(&mut lines, |fewer| Ok(self.difference(&Run::of(self.language, fewer.to_vec(), ended))?.is_some()))?;
        let shortest = self.difference(&Run::of(self.language, lines.clone(), ended))?;
        let calls = runs * LINES_PER_RUN as u64 + place.line as u64;
        Ok(Difference { seed, calls, shortest: shortest.unwrap_or_else(|| place.clone()), place, prefix, lines })
    }

    /// The least number of first lines with a difference. That is the line that differs and those before it, unless the child
    /// kept back what it had to say, so that more lines are needed to see it.
    fn shortest_prefix(&self, run: &Run, line: usize) -> io::Result<usize> {
        let (mut low, mut high) = (line, run.lines.len());
        if line < high && self.within(run, line + 1)?.is_some() {
            return Ok(line + 1);
        }
        while high - low > 1 {
            let middle = (low + high) / 2;
            match self.within(run, middle)? {
                Some(_) => high = middle,
                None => low = middle,
            }
        }
        Ok(high)
    }
}

/// What the child said in place of what was expected: so many of its lines, or how it ended.
fn said(rest: &[u8], lines: usize, complaint: Option<&str>) -> String {
    let said = rest.split_inclusive(|&byte| byte == b'\n').take(lines).collect::<Vec<_>>().concat();
    match (said.is_empty(), complaint) {
        (true, Some(complaint)) => format!("nothing more; {complaint}\n"),
        (true, None) => "nothing more\n".to_string(),
        _ => String::from_utf8_lossy(&said).into_owned(),
    }
}

impl Agreement {
    pub fn report(&self, seed: u64) -> String {
        let (calls, seconds) = (self.tally.calls(), self.time.as_secs_f64());
        format!(
            "seeds {seed} to {}: {calls} calls compared, no difference; {:.1} s, {:.0} calls a second\n{}",
            seed.wrapping_add(self.runs).wrapping_sub(1),
            seconds,
            calls as f64 / seconds,
            self.tally.report()
        )
    }
}

impl Difference {
    /// What differs, and the lines that show it; these may hold any bytes.
    pub fn report(&self) -> Vec<u8> {
        let head = format!(
            "difference: seed {}, line {} of its run, after {} lines that agree\nexpected {}found    {}\
             the first {} lines show a difference; so do these {}, of which none can be left out:\n",
            self.seed,
            self.place.line + 1,
            self.calls,
            or_nothing(&self.place.expected),
            self.place.found,
            self.prefix,
            self.lines.len(),
        );
        let tail = format!("\nexpected {}found    {}", or_nothing(&self.shortest.expected), self.shortest.found);
        [head.into_bytes(), self.lines.join(&b'\n'), tail.into_bytes()].concat()
    }
}

fn or_nothing(expected: &str) -> &str {
    if expected.is_empty() {
        "nothing more\n"
    } else {
        expected
    }
}
