//! What one session gets in each of two runs that differ in other sessions' messages alone. It must be the same until the
//! session ends, and is read from the lines and from what a program printed to them; no server is asked.

use crate::pair::{Asked, Runs, Step};
use crate::pair_tally::{Group, PairTally, Part};
use crate::printed::Printed;

/// The least answer that is a refusal.
pub const LEAST_REFUSAL: u64 = 10;

/// Where the session gets something else in the second run than in the first.
#[derive(Clone, Debug, PartialEq, Eq)]
pub struct Difference {
    pub step: usize,
    pub session: u64,
    pub got: [String; 2],
}

#[derive(Clone, Copy, Debug, PartialEq, Eq)]
enum Stage {
    Before,
    Living(u64),
    Ended,
    /// The open of the session is refused, or gives it another number in the second run.
    TwoNumbers,
    /// From here on the runs differ in more than other sessions' messages, so that nothing is promised.
    BrokenOff,
}

impl Stage {
    fn part(self) -> Part {
        match self {
            Stage::Before => Part::Before,
            Stage::Living(_) => Part::Compared,
            Stage::Ended | Stage::TwoNumbers | Stage::BrokenOff => Part::Further,
        }
    }
}

struct Watch<'a> {
    printed: [&'a [Vec<Printed>]; 2],
    stage: Stage,
    /// The latest time of each run.
    latest: [u64; 2],
    tally: PairTally,
}

/// Holds what the chosen session gets in one run to what it gets in the other.
pub fn compare(steps: &[Step], printed: [&[Vec<Printed>]; 2]) -> Result<PairTally, Difference> {
    let mut watch = Watch { printed, stage: Stage::Before, latest: [0; 2], tally: PairTally::default() };
    for (place, step) in steps.iter().enumerate() {
        let asked = Asked::of(&step.line);
        let stage = watch.stage;
        watch.stage = match stage {
            Stage::Before | Stage::Living(_) if !watch.fits(step, &asked) => Stage::BrokenOff,
            Stage::Before if step.chosen => watch.opened(place),
            Stage::Living(session) => watch.living(session, place, step, &asked)?,
            over => over,
        };
        let both = printed.map(|run| &run[place][..]);
        watch.tally.note_call(step, &asked, stage.part());
        if stage == Stage::Before && !step.chosen {
            watch.tally.note_before(step, &asked, both);
        }
    }
    Ok(watch.finish())
}

impl Watch<'_> {
    /// Whether the runs differ in other sessions' messages alone, up to this line, with times that never go back.
    fn fits(&mut self, step: &Step, asked: &Asked) -> bool {
        let own = matches!(self.stage, Stage::Living(session) if asked.session == Some(session));
        let mut forward = true;
        for &run in step.runs.each() {
            let time = asked.time.unwrap_or(self.latest[run]);
            forward &= time >= self.latest[run];
            self.latest[run] = time;
        }
        forward && (step.runs == Runs::Both || (asked.is_sent() && !own))
    }

    fn opened(&mut self, place: usize) -> Stage {
        let number = |run: usize| self.printed[run][place].first().filter(|line| line.answer == 1)?.session;
        match number(0) {
            Some(session) if number(1) == Some(session) => {
                self.tally.note_open(session);
                Stage::Living(session)
            }
            _ => Stage::TwoNumbers,
        }
    }

    fn living(&mut self, session: u64, place: usize, step: &Step, asked: &Asked) -> Result<Stage, Difference> {
        let own = asked.session == Some(session);
        let both = self.printed.map(|run| &run[place][..]);
        let got = both.map(|printed| got(session, asked, printed));
        if got[0] != got[1] {
            return Err(Difference { step: place, session, got });
        }
        match own {
            true => self.tally.note_own(asked, &step.line, both[0]),
            false => self.tally.note_others(step, asked, both),
        }
        if asked.verb == "batch" {
            self.tally.note_batch(session, both);
        }
        let Some(end) = end(session, asked, both[0]) else { return Ok(Stage::Living(session)) };
        self.tally.note_end(end);
        Ok(Stage::Ended)
    }

    fn finish(mut self) -> PairTally {
        match self.stage {
            Stage::Before | Stage::TwoNumbers => {
                self.tally = PairTally::default();
                self.tally.note(Group::Left, "pairs without one number for the session", None);
            }
            Stage::Living(_) => self.tally.note(Group::End, "none", None),
            Stage::BrokenOff => self.tally.note(Group::Left, "pairs that differ in more", None),
            Stage::Ended => {}
        }
        self.tally
    }
}

/// What a session gets of a call: all that its own calls print; of others, what is printed for it, and the refusal of a
/// call that is for all. An open's number and its 13 are left out, and so is whether a batch is answered 1 or 2.
fn got(session: u64, asked: &Asked, printed: &[Printed]) -> String {
    let for_it = |line: &&Printed| match asked.verb {
        _ if asked.session == Some(session) => true,
        "open" => !matches!(line.answer, 1 | 13),
        _ if asked.is_for_all() && line.answer >= LEAST_REFUSAL => true,
        _ => line.session == Some(session),
    };
    printed.iter().filter(for_it).map(|line| &line.line[..]).collect()
}

/// How a call ends the session, if it does.
fn end(session: u64, asked: &Asked, printed: &[Printed]) -> Option<&'static str> {
    let own = asked.session == Some(session);
    let line = printed.iter().find(|line| own || line.session == Some(session))?;
    match (asked.verb, line.answer) {
        ("close", 1) if own => Some("close"),
        ("tick", 4) => Some("tick"),
        (_, 4) if own => Some("abort"),
        _ => None,
    }
}
