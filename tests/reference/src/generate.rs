//! Random runs of calls: each next call is chosen with the server's present state at hand.

use crate::call::{Call, SESSIONS};
use crate::craft::{self, respelled};
use crate::message::MAX_MESSAGE;
use crate::pool::{self, Pool};
use crate::random::Random;
use crate::server::{Server, Session};
use crate::{edits, limits};

/// What a stretch of calls is about.
#[derive(Clone, Copy, Debug, PartialEq, Eq)]
enum Theme {
    Sensible,
    Damaged,
    Limits,
    Clocks,
}

pub struct Generator {
    pub random: Random,
    pool: Pool,
    theme: Theme,
    left: usize,
}

impl Generator {
    pub fn new(seed: u64, zone: &[u8]) -> Generator {
        Generator { random: Random::new(seed), pool: Pool::new(zone), theme: Theme::Sensible, left: 20 }
    }

    /// The next call of the run.
    pub fn next(&mut self, server: &Server) -> Call {
        if self.left == 0 {
            self.theme = *self.random.pick(&[
                Theme::Sensible,
                Theme::Sensible,
                Theme::Sensible,
                Theme::Damaged,
                Theme::Limits,
                Theme::Clocks,
            ]);
            self.left = 10 + self.random.below(40);
        }
        self.left -= 1;
        let open = server.sessions.iter().flatten().count();
        if open == 0 || (open < 3 && self.random.once_in(4)) {
            return Call::Open { time: self.time(server) };
        }
        match self.theme {
            Theme::Sensible => self.sensible(server),
            Theme::Damaged => self.damaged(server),
            Theme::Limits => self.limits(server),
            Theme::Clocks => self.clocks(server),
        }
    }

    /// A time that mostly moves on a little, sometimes stands still, seldom goes back.
    fn time(&mut self, server: &Server) -> u64 {
        let latest = server.latest;
        let random = &mut self.random;
        match random.below(60) {
            0 => latest.saturating_sub(1),
            1 => latest.saturating_sub(random.number() % 100_000),
            2 => random.number() % (latest / 2 + 1),
            3..=25 => latest,
            26 => latest.saturating_add(29_999),
            _ => latest.saturating_add(random.number() % 900),
        }
    }

    /// A session number, mostly of an open session.
    fn session(&mut self, server: &Server) -> u64 {
        let open: Vec<u64> =
            (0..SESSIONS).filter(|number| server.sessions[*number].is_some()).map(|number| number as u64).collect();
        match self.random.below(40) {
            0 => self.random.below(6) as u64,
            1 => *self.random.pick(&[4, 255, 256, 1 << 32, u64::MAX]),
            _ if open.is_empty() => 0,
            _ => *self.random.pick(&open),
        }
    }

    /// An open session with fewer than two subscriptions.
    fn unsubscribed(&self, server: &Server) -> Option<u64> {
        let few = |session: &Option<Session>| session.as_ref().is_some_and(|session| session.subscriptions.len() < 2);
        server.sessions.iter().position(few).map(|number| number as u64)
    }

    fn sensible(&mut self, server: &Server) -> Call {
        let time = self.time(server);
        if let Some(session) = self.unsubscribed(server).filter(|_| self.random.once_in(3)) {
            let name = self.pool.name(&mut self.random);
            let id = 20_000 + self.random.below(20_000) as u16;
            let bytes =
                craft::subscribe(id, &name, pool::asked_type(&mut self.random), pool::asked_class(&mut self.random));
            return Call::Message { time, session, bytes };
        }
        match self.random.below(40) {
            0 => Call::Open { time },
            1 => Call::Close { time, session: self.session(server) },
            2..=4 => Call::Tick { time },
            5..=19 => Call::Batch { time, edits: self.edits(server) },
            _ => {
                let session = self.session(server);
                let bytes = self.request(server.sessions.get(session as usize).and_then(Option::as_ref));
                Call::Message { time, session, bytes }
            }
        }
    }

    /// A message that a client might well send.
    pub fn request(&mut self, session: Option<&Session>) -> Vec<u8> {
        let held: Vec<u16> = session
            .map_or(Vec::new(), |session| session.subscriptions.iter().map(|subscription| subscription.id).collect());
        let random = &mut self.random;
        let id = message_id(&held, random);
        match random.below(24) {
            0..=11 => {
                let name = self.pool.any_name(random);
                craft::subscribe(id, &name, pool::asked_type(random), pool::asked_class(random))
            }
            12..=16 if !held.is_empty() => craft::unsubscribe(*random.pick(&held)),
            12..=17 => craft::unsubscribe(random.below(12) as u16),
            18..=20 => craft::keepalive(id, random.number() as u32, random.number() as u32),
            21 => craft::reconfirm(
                &self.pool.any_name(random),
                pool::asked_type(random),
                pool::asked_class(random),
                &pool::rdata(random),
            ),
            22 => craft::message(id, craft::REQUEST, &craft::tlv(random.below(0x50) as u16, &[0; 3])),
            _ if random.once_in(2) => again(session, id, random).unwrap_or_default(),
            _ => craft::message(id, (random.number() as u16) & 0x7fff, &[]),
        }
    }

    /// A batch that a zone's owner might well send.
    pub fn edits(&mut self, server: &Server) -> Vec<u8> {
        edits::sensible(server, &self.pool, &mut self.random)
    }

    /// A name at or below the zone that is drawn often.
    pub fn name(&mut self) -> Vec<u8> {
        self.pool.name(&mut self.random)
    }

    fn damaged(&mut self, server: &Server) -> Call {
        let mut call = self.sensible(server);
        if let Call::Message { bytes, .. } | Call::Batch { edits: bytes, .. } = &mut call {
            if self.random.once_in(2) {
                damage(bytes, &mut self.random);
            }
        }
        call
    }

    fn limits(&mut self, server: &Server) -> Call {
        let time = server.latest;
        let busiest = (0..SESSIONS)
            .max_by_key(|number| server.sessions[*number].as_ref().map(|session| session.subscriptions.len()));
        let session = if self.random.once_in(6) { self.session(server) } else { busiest.unwrap_or(0) as u64 };
        let live = server.sessions.get(session as usize).and_then(Option::as_ref);
        match self.random.below(12) {
            0..=6 => Call::Message { time, session, bytes: limits::request(live, &server.zone, &mut self.random) },
            7..=10 => Call::Batch { time, edits: limits::batch(server, &mut self.random) },
            _ => Call::Open { time },
        }
    }

    /// Calls one millisecond before, at and after the moments when a clock runs out.
    fn clocks(&mut self, server: &Server) -> Call {
        let mut edges: Vec<u64> = Vec::new();
        for session in server.sessions.iter().flatten() {
            let clocks = &session.clocks;
            for limit in [
                clocks.keepalive_start.saturating_add(2 * u64::from(clocks.interval)),
                clocks.inactivity_start.saturating_add(30_000),
            ] {
                edges.extend(
                    [limit.saturating_sub(1), limit, limit.saturating_add(1)]
                        .iter()
                        .filter(|edge| **edge >= server.latest),
                );
            }
        }
        let time =
            if edges.is_empty() || self.random.once_in(4) { self.time(server) } else { *self.random.pick(&edges) };
        let session = self.session(server);
        match self.random.below(10) {
            0..=4 => Call::Tick { time },
            5 => Call::Message { time, session, bytes: craft::keepalive(message_id(&[], &mut self.random), 1, 1) },
            6 => Call::Message { time, session, bytes: craft::message(3, craft::REQUEST, &craft::tlv(1, &[0; 7])) },
            7 => Call::Message { time, session, bytes: craft::message(3, 0, &[]) },
            8 => Call::Close { time, session },
            _ => self.sensible(server),
        }
    }

    /// A message of one byte too many, or of just as many as there may be.
    pub fn longest(&mut self, server: &Server) -> Call {
        let extra = self.random.below(2);
        let rest = craft::tlv(3, &vec![7; MAX_MESSAGE - 12 - 4 - 4 - 8 + extra]);
        let mut bytes = craft::keepalive(9, 0, 0);
        bytes.extend_from_slice(&rest);
        Call::Message { time: server.latest, session: self.session(server), bytes }
    }
}

/// A message ID, mostly one that is free.
fn message_id(held: &[u16], random: &mut Random) -> u16 {
    match random.below(30) {
        0 => 0,
        1 if !held.is_empty() => *random.pick(held),
        2 => 0xffff,
        _ => (1..=u16::MAX).find(|id| !held.contains(id)).unwrap_or(1),
    }
}

/// A SUBSCRIBE for what a subscription already asks, in another spelling.
fn again(session: Option<&Session>, id: u16, random: &mut Random) -> Option<Vec<u8>> {
    let live = &session?.subscriptions;
    if live.is_empty() {
        return None;
    }
    let question = &random.pick(live).question;
    Some(craft::subscribe(id, &respelled(&question.name, random), question.rtype, question.class))
}

/// Flips bits, sets octets, cuts or lengthens.
pub fn damage(bytes: &mut Vec<u8>, random: &mut Random) {
    if bytes.is_empty() {
        return bytes.push(random.byte());
    }
    let at = random.below(bytes.len());
    match random.below(6) {
        0 | 1 => bytes[at] ^= 1 << random.below(8),
        2 => bytes[at] = *random.pick(&[0, 1, 63, 64, 127, 128, 192, 254, 255]),
        3 => bytes.truncate(at),
        4 => bytes.push(random.byte()),
        _ => {
            bytes.remove(at);
        }
    }
}
