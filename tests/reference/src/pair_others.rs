//! Other sessions' messages in a random pair of runs: in both, in one alone, or another in the second.

use crate::call::{Call, SESSIONS};
use crate::pair::Runs;
use crate::pair_messages::{self, Focus};
use crate::pair_runs::Maker;

impl Maker {
    /// Messages of other sessions: one that both runs have, one that is another in the second, or some of one run.
    pub fn others(&mut self) {
        let one = self.one_run();
        match self.generator.random.below(8) {
            _ if self.plan.others != [true, true] => self.burst(one),
            choice if choice < self.plan.kept => {
                let call = self.foreign(Runs::Both);
                self.call(Runs::Both, call);
            }
            6 | 7 => self.changed(),
            _ => self.burst(one),
        }
    }

    /// One run of those that have messages of other sessions.
    pub fn one_run(&mut self) -> Runs {
        match self.plan.others {
            [true, false] => Runs::First,
            [false, true] => Runs::Second,
            _ => *self.generator.random.pick(&[Runs::First, Runs::Second]),
        }
    }

    fn burst(&mut self, runs: Runs) {
        let counts: &[usize] = if self.focus == Focus::Fill { &[1, 4, 17] } else { &[1, 1, 1, 2, 3] };
        let count = *self.generator.random.pick(counts);
        let Call::Message { session, .. } = self.foreign(runs) else { return };
        for _ in 0..count {
            let mut call = self.foreign(runs);
            if let (Call::Message { session: to, .. }, Focus::Fill) = (&mut call, self.focus) {
                *to = session;
            }
            self.call(runs, call);
        }
    }

    /// A message of another session, in the second run with other bytes, to another number or at another time.
    fn changed(&mut self) {
        let call = self.foreign(Runs::First);
        let Call::Message { mut session, mut bytes, time } = call.clone() else { return };
        self.call(Runs::First, call);
        let mut late = time.max(self.given[1]);
        match self.generator.random.below(3) {
            0 => bytes = self.foreign_bytes(1, session),
            1 => session = self.other(1),
            _ => late = self.time(Runs::Second),
        }
        self.call(Runs::Second, Call::Message { time: late, session, bytes });
    }

    /// A message that is not the chosen session's, for some of the runs.
    fn foreign(&mut self, runs: Runs) -> Call {
        let run = *self.generator.random.pick(runs.each());
        let time = self.time(runs);
        let session = self.other(run);
        Call::Message { time, session, bytes: self.foreign_bytes(run, session) }
    }

    fn foreign_bytes(&mut self, run: usize, session: u64) -> Vec<u8> {
        let held = match self.living() {
            Some(live) => live.subscriptions.clone(),
            None => self.held_beside(Runs::Both, Some(session)),
        };
        if let Some(bytes) = self.longest(300) {
            return bytes;
        }
        let (generator, server) = (&mut self.generator, &self.players[run].server);
        pair_messages::message(self.focus, server, session, &held, generator)
    }

    /// A number that is not the chosen session's, mostly of a session that is open in the run.
    pub fn other(&mut self, run: usize) -> u64 {
        let server = &self.players[run].server;
        let not_chosen = |number: &u64| Some(*number) != self.session;
        let open = |number: &u64| server.sessions[*number as usize].is_some();
        let living: Vec<u64> = (0..SESSIONS as u64).filter(not_chosen).filter(open).collect();
        let any: Vec<u64> = (0..SESSIONS as u64).chain([4, 255, 1 << 32, u64::MAX]).filter(not_chosen).collect();
        let few = living.is_empty() || self.generator.random.once_in(20);
        *self.generator.random.pick(if few { &any } else { &living })
    }
}
