//! What a random pair of runs is to have, and the end of its chosen session.

use crate::call::Call;
use crate::craft;
use crate::message::Subscription;
use crate::pair::Runs;
use crate::pair_messages::aborting;
use crate::pair_runs::Maker;
use crate::random::Random;

/// How the chosen session is to end.
#[derive(Clone, Copy, Debug, PartialEq, Eq)]
pub enum End {
    Tick,
    Close,
    Abort,
    /// It is alive when the runs are over.
    None,
    /// Its messages and the ticks are left to chance.
    Any,
}

pub struct Plan {
    /// How many opens and then steps there are before the session's open, and how many steps in its life.
    pub opens: usize,
    pub before: usize,
    pub living: usize,
    pub end: End,
    /// Whether each of the runs has messages of other sessions.
    pub others: [bool; 2],
    /// Of eight messages of others, how many both runs have.
    pub kept: usize,
    /// How many steps from its end on the session gets the longest PUSHes.
    pub heavy: Option<usize>,
}

impl Plan {
    pub fn random(random: &mut Random) -> Plan {
        let living = *random.pick(&[4, 12, 25, 50, 100, 160]);
        Plan {
            opens: random.below(4),
            before: *random.pick(&[0, 0, 2, 6, 15, 30]),
            living,
            end: *random.pick(&[End::Tick, End::Tick, End::Tick, End::Close, End::Abort, End::None, End::Any]),
            others: *random.pick(&[[true, true], [true, true], [true, true], [true, false], [false, true]]),
            kept: *random.pick(&[0, 2, 4, 6]),
            heavy: if random.once_in(8) { Some(random.below(living)) } else { None },
        }
    }
}

impl Maker {
    /// Ends the chosen session as planned, if it lives.
    pub fn end(&mut self) {
        let Some(session) = self.session else { return };
        match self.plan.end {
            End::Tick => self.end_by_tick(),
            End::Close => {
                let time = self.time(Runs::Both);
                self.call(Runs::Both, Call::Close { time, session });
            }
            End::Abort => {
                let held = self.living().map_or(Vec::new(), |live| live.subscriptions.clone());
                let (time, bytes) = (self.time(Runs::Both), last_message(&held, &mut self.generator.random));
                self.call(Runs::Both, Call::Message { time, session, bytes });
            }
            End::None | End::Any => {}
        }
    }

    /// A tick as soon as there can be one that ends the session, or a little later. Other sessions have their say before it.
    fn end_by_tick(&mut self) {
        let limit = self.limit();
        let last = (limit - 1).max(self.floor(Runs::Both));
        match self.generator.random.below(4) {
            0 => self.call(Runs::Both, Call::Tick { time: last }),
            1 => self.call(Runs::Both, Call::Batch { time: last, edits: Vec::new() }),
            _ => {}
        }
        self.ending = true;
        for _ in 0..self.generator.random.below(4) {
            self.others();
        }
        let late = *self.generator.random.pick(&[0, 0, 0, 1, 700]);
        let time = limit.max(self.floor(Runs::Both)).saturating_add(late);
        self.call(Runs::Both, Call::Tick { time });
    }
}

/// A message that ends its session: by its bytes, or because the session holds its ID or its question.
fn last_message(held: &[Subscription], random: &mut Random) -> Vec<u8> {
    if held.is_empty() || random.once_in(2) {
        return aborting(random);
    }
    let Subscription { id, question } = random.pick(held);
    match random.below(3) {
        0 => craft::keepalive(*id, 1, 1),
        1 => craft::subscribe(*id, &question.name, 0, 0),
        _ => craft::subscribe(id.wrapping_add(1).max(1), &question.name, question.rtype, question.class),
    }
}
