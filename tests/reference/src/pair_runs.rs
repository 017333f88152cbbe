//! Random pairs of runs: the same calls at the same times, and other sessions' messages that differ. This server, once
//! for each run, is asked for calls that make sense; what comes of them is not kept.

use crate::call::{Call, SESSIONS};
use crate::generate::Generator;
use crate::heavy;
use crate::message::Subscription;
use crate::pair::{Runs, Step};
use crate::pair_messages::{self, Focus, FOCUSES};
use crate::pair_plan::{End, Plan};
use crate::player::{Language, Player};
use crate::replay::{write_line, MAX_LINE};
use crate::script::BEGINNINGS;
use crate::server::{Server, Session, OUTPUT};
use crate::{hex, selftest};

/// A pair, and how often another open had to be chosen because this one was refused or gave two numbers.
pub struct Made {
    pub steps: Vec<Step>,
    pub rechosen: u64,
}

pub struct Maker {
    language: Language,
    pub plan: Plan,
    pub generator: Generator,
    pub players: [Player; 2],
    /// The latest time in each run, of refused calls too.
    pub given: [u64; 2],
    pub focus: Focus,
    /// How many steps the focus stays.
    left: usize,
    /// Whether too few bytes of output are lent.
    short: bool,
    /// The chosen session, from its open to its end.
    pub session: Option<u64>,
    /// Whether time may come to where a tick ends it.
    pub ending: bool,
    made: Made,
}

/// The pair that a seed names.
pub fn random(language: Language, seed: u64) -> Made {
    let mut maker = Maker::new(language, seed);
    for _ in 0..maker.plan.opens {
        maker.open();
    }
    for _ in 0..maker.plan.before {
        maker.step();
    }
    maker.choose();
    maker.first_subscriptions();
    for left in (0..maker.plan.living).rev() {
        if maker.session.is_none() {
            break;
        }
        maker.step();
        if Some(left) == maker.plan.heavy {
            maker.heavy();
        }
    }
    maker.end();
    maker.behind();
    maker.made
}

impl Maker {
    fn new(language: Language, seed: u64) -> Maker {
        let players = [Player::new(language), Player::new(language)];
        let zone = match language {
            Language::Replay => players[0].server.zone.clone(),
            Language::Service => selftest::zone_of(seed),
        };
        let mut generator = Generator::new(seed, &zone);
        let plan = Plan::random(&mut generator.random);
        let given = [*generator.random.pick(&BEGINNINGS); 2];
        let made = Made { steps: Vec::new(), rechosen: 0 };
        let (focus, left, short, session, ending) = (Focus::Plain, 10, false, None, false);
        let mut maker = Maker { language, plan, generator, players, given, focus, left, short, session, ending, made };
        if language == Language::Service {
            maker.line(Runs::Both, format!("start\t{}", hex::write(&zone)).into_bytes());
        }
        maker
    }

    /// One more line. The replay program would not read one that is too long, so there is none.
    fn line(&mut self, runs: Runs, line: Vec<u8>) {
        if self.language == Language::Replay && line.len() > MAX_LINE {
            return;
        }
        for &run in runs.each() {
            self.players[run].step(&line);
        }
        self.made.steps.push(Step { runs, line, chosen: false });
        self.session = self.session.filter(|_| self.living().is_some());
    }

    pub fn call(&mut self, runs: Runs, call: Call) {
        for &run in runs.each() {
            assert!(call.time() >= self.given[run], "the time of a pair's runs does not go back");
            self.given[run] = call.time();
        }
        self.line(runs, write_line(&call).into_bytes());
    }

    /// The chosen session as this server has it; the same in both runs.
    pub fn living(&self) -> Option<&Session> {
        self.players[0].server.sessions[self.session? as usize].as_ref()
    }

    /// The latest time of some of the runs.
    pub fn floor(&self, runs: Runs) -> u64 {
        runs.each().iter().map(|&run| self.given[run]).max().unwrap_or(0)
    }

    /// The first time at which a tick ends the chosen session.
    pub fn limit(&self) -> u64 {
        self.living().map_or(u64::MAX, |live| live.clocks.end(!live.subscriptions.is_empty()))
    }

    /// The time, or the last one before it at which a tick leaves the chosen session alive, unless it is to end or may.
    fn capped(&self, runs: Runs, time: u64) -> u64 {
        let cap = if self.ending || self.plan.end == End::Any { u64::MAX } else { self.limit() - 1 };
        time.min(cap).max(self.floor(runs))
    }

    /// A time for the next call of some of the runs.
    pub fn time(&mut self, runs: Runs) -> u64 {
        let floor = self.floor(runs);
        let random = &mut self.generator.random;
        let ahead = match random.below(40) {
            0..=13 => 0,
            14 => 29_999,
            15 => 14_000,
            _ => random.number() % 900,
        };
        self.capped(runs, floor.saturating_add(ahead))
    }

    fn step(&mut self) {
        if self.left == 0 {
            self.focus = *self.generator.random.pick(&FOCUSES);
            self.left = 5 + self.generator.random.below(25);
        }
        self.left -= 1;
        let run = self.generator.random.below(2);
        if self.server(run).sessions.iter().flatten().count() < SESSIONS - 1 && self.generator.random.once_in(6) {
            return self.open();
        }
        match self.generator.random.below(100) {
            0..=39 => self.others(),
            40..=61 => self.own(),
            62..=79 => self.batch(),
            80..=86 => self.tick(),
            87..=93 => self.open(),
            94..=96 => self.close(),
            _ if self.language == Language::Service => self.lend(),
            _ => self.batch(),
        }
        if self.short && self.generator.random.once_in(5) {
            self.lend();
        }
    }

    fn server(&self, run: usize) -> &Server {
        &self.players[run].server
    }

    /// What all sessions but one hold in some of the runs.
    pub fn held_beside(&self, runs: Runs, session: Option<u64>) -> Vec<Subscription> {
        let servers: Vec<&Server> = runs.each().iter().map(|&run| self.server(run)).collect();
        pair_messages::held_beside(&servers, session)
    }

    /// Messages of the chosen session, in both runs; of another one where there is none.
    fn own(&mut self) {
        let many = self.focus == Focus::Fill && self.generator.random.once_in(12);
        for _ in 0..if many { 17 } else { 1 } {
            let Some(session) = self.session else { return self.others() };
            let bytes = self.own_bytes(session);
            let time = self.time(Runs::Both);
            self.call(Runs::Both, Call::Message { time, session, bytes });
        }
    }

    /// Once in so many times a message of as many bytes as there may be or one more, where a line can have it.
    pub fn longest(&mut self, times: usize) -> Option<Vec<u8>> {
        if self.language == Language::Replay || !self.generator.random.once_in(times) {
            return None;
        }
        match self.generator.longest(&self.players[0].server) {
            Call::Message { bytes, .. } => Some(bytes),
            _ => None,
        }
    }

    fn own_bytes(&mut self, session: u64) -> Vec<u8> {
        if let Some(bytes) = self.longest(60) {
            return bytes;
        }
        let held = self.held_beside(Runs::Both, Some(session));
        let (generator, server) = (&mut self.generator, &self.players[0].server);
        match self.plan.end {
            End::Any => pair_messages::message(self.focus, server, session, &held, generator),
            _ => pair_messages::harmless(self.focus, server, session, &held, generator),
        }
    }

    fn first_subscriptions(&mut self) {
        for _ in 0..self.generator.random.below(4) {
            let Some(session) = self.session else { return };
            let (time, bytes) = (self.time(Runs::Both), pair_messages::wide(&mut self.generator));
            if !pair_messages::aborts(&bytes, self.server(0), session) {
                self.call(Runs::Both, Call::Message { time, session, bytes });
            }
        }
    }

    fn batch(&mut self) {
        let (time, asked) = (self.time(Runs::Both), self.held_beside(Runs::Both, None));
        let edits = pair_messages::batch(&self.players[0].server, &asked, &mut self.generator);
        self.call(Runs::Both, Call::Batch { time, edits });
    }

    /// A tick at any time, or about when another session ends.
    fn tick(&mut self) {
        let run = self.generator.random.below(2);
        let floor = self.floor(Runs::Both);
        let living = self.server(run).sessions.iter().flatten();
        let ends = living.map(|live| live.clocks.end(!live.subscriptions.is_empty()));
        let edges: Vec<u64> = ends.flat_map(|end| [end - 1, end]).filter(|edge| *edge >= floor).collect();
        let any = self.time(Runs::Both);
        let time = match edges.is_empty() || self.generator.random.once_in(2) {
            true => any,
            false => *self.generator.random.pick(&edges),
        };
        let time = self.capped(Runs::Both, time);
        self.call(Runs::Both, Call::Tick { time });
    }

    fn open(&mut self) {
        let time = self.time(Runs::Both);
        self.call(Runs::Both, Call::Open { time });
    }

    fn close(&mut self) {
        let run = self.generator.random.below(2);
        let (time, session) = (self.time(Runs::Both), self.other(run));
        self.call(Runs::Both, Call::Close { time, session });
    }

    /// Other lengths of output; too few bytes are soon followed by enough.
    fn lend(&mut self) {
        let lengths: &[usize] =
            if self.short { &[OUTPUT, OUTPUT + 1] } else { &[0, OUTPUT / 2, OUTPUT - 1, OUTPUT + 4096] };
        let length = *self.generator.random.pick(lengths);
        self.short = length < OUTPUT;
        self.line(Runs::Both, format!("lend\t{length}").into_bytes());
    }

    /// The open of the chosen session: one that gives the same number in both runs.
    fn choose(&mut self) {
        loop {
            let free = [0, 1].map(|run| self.server(run).sessions.iter().position(Option::is_none));
            let time = self.time(Runs::Both);
            self.call(Runs::Both, Call::Open { time });
            if free[0].is_some() && free[0] == free[1] {
                self.made.steps.last_mut().expect("the open").chosen = true;
                self.session = free[0].map(|number| number as u64);
                return;
            }
            self.made.rechosen += 1;
            match self.made.rechosen < 6 {
                true => (0..self.generator.random.below(8)).for_each(|_| self.step()),
                false => (0..SESSIONS as u64).for_each(|session| self.call(Runs::Both, Call::Close { time, session })),
            }
        }
    }

    /// A full store of the longest records, asked for by the chosen session and, in one run alone, by others.
    fn heavy(&mut self) {
        use heavy::Step::{Ask, Clear, Fill, Retouch};
        for step in [Clear, Clear, Fill, Ask, Fill, Ask, Retouch, Clear, Clear] {
            let mut call = heavy::call(step, &self.players[0].server, &mut self.generator.random);
            call.set_time(self.floor(Runs::Both));
            match call {
                Call::Message { time, bytes, .. } => self.ask(time, &bytes),
                _ => self.call(Runs::Both, call),
            }
        }
    }

    /// The same message of the chosen session and, in one run, of another one.
    fn ask(&mut self, time: u64, bytes: &[u8]) {
        let runs = self.one_run();
        let other = self.other(runs.each()[0]);
        self.call(runs, Call::Message { time, session: other, bytes: bytes.to_vec() });
        let Some(session) = self.session else { return };
        if !pair_messages::aborts(bytes, &self.players[0].server, session) {
            self.call(Runs::Both, Call::Message { time, session, bytes: bytes.to_vec() });
        }
    }

    /// Lines behind the session's end: from there on the runs may differ in anything.
    fn behind(&mut self) {
        if self.session.is_some() {
            return;
        }
        for _ in 0..self.generator.random.below(16) {
            let runs = *self.generator.random.pick(&[Runs::Both, Runs::First, Runs::Second]);
            let run = runs.each()[0];
            let mut call = self.generator.next(&self.players[run].server);
            call.set_time(call.time().max(self.floor(runs)));
            self.call(runs, call);
        }
    }
}
