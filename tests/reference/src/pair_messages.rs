//! Bytes for pairs of runs: messages of the chosen session and of others that meet in IDs and questions, and batches
//! that concern them.

use crate::craft::{self, edit, respelled};
use crate::generate::{damage, Generator};
use crate::message::{judge_in_session, Question, Subscription, Verdict};
use crate::pool;
use crate::random::Random;
use crate::server::Server;
use crate::zone::TTL_ONE;
use crate::{limits, message};

/// What a stretch of a pair is about.
#[derive(Clone, Copy, Debug, PartialEq, Eq)]
pub enum Focus {
    Plain,
    /// One subscription after the other, to the most that a session can have.
    Fill,
    /// The IDs and the questions of other sessions.
    Alike,
    /// Messages that abort.
    Aborts,
    Damaged,
}

pub const FOCUSES: [Focus; 7] =
    [Focus::Plain, Focus::Plain, Focus::Fill, Focus::Alike, Focus::Alike, Focus::Aborts, Focus::Damaged];

/// A message for a session, or for a number without one, with what other sessions hold at hand.
pub fn message(
    focus: Focus,
    server: &Server,
    session: u64,
    others: &[Subscription],
    generator: &mut Generator,
) -> Vec<u8> {
    let live = server.sessions.get(session as usize).and_then(Option::as_ref);
    let random = &mut generator.random;
    match focus {
        Focus::Fill if !random.once_in(4) => {
            limits::another(live.map_or(&[], |live| &live.subscriptions), free_id(random), &server.zone, random)
        }
        Focus::Alike if !others.is_empty() && !random.once_in(3) => alike(random.pick(others), random),
        Focus::Aborts if random.once_in(3) => aborting(random),
        Focus::Plain if !server.records.is_empty() && random.once_in(12) => {
            let record = random.pick(&server.records);
            craft::reconfirm(&record.name, record.rtype, record.class, &record.rdata)
        }
        Focus::Damaged if random.once_in(2) => {
            let mut bytes = generator.request(live);
            damage(&mut bytes, &mut generator.random);
            bytes
        }
        _ if random.once_in(8) => limits::request(live, &server.zone, random),
        _ => generator.request(live),
    }
}

/// A message as above that doesn't end the session.
pub fn harmless(
    focus: Focus,
    server: &Server,
    session: u64,
    others: &[Subscription],
    generator: &mut Generator,
) -> Vec<u8> {
    for _ in 0..20 {
        let bytes = message(focus, server, session, others, generator);
        if !aborts(&bytes, server, session) {
            return bytes;
        }
    }
    craft::message(3, 0, &[])
}

/// Whether the message ends the session.
pub fn aborts(bytes: &[u8], server: &Server, session: u64) -> bool {
    let live = server.sessions.get(session as usize).and_then(Option::as_ref);
    live.is_some_and(|live| judge_in_session(bytes, &server.zone, &live.subscriptions).verdict == Verdict::Abort)
}

fn free_id(random: &mut Random) -> u16 {
    1_000 + random.below(60_000) as u16
}

/// A message with the ID or the question of a subscription that another session holds.
fn alike(other: &Subscription, random: &mut Random) -> Vec<u8> {
    let Subscription { id, question } = other;
    let again = |id, random: &mut Random| {
        craft::subscribe(id, &respelled(&question.name, random), question.rtype, question.class)
    };
    match random.below(8) {
        0 => craft::subscribe(*id, &question.name, question.rtype, question.class),
        1 => again(*id, random),
        2 | 3 => again(free_id(random), random),
        4 | 5 => craft::subscribe(*id, &question.name, pool::asked_type(random), pool::asked_class(random)),
        6 => craft::unsubscribe(*id),
        _ => craft::keepalive(*id, 1, 1),
    }
}

/// A message that aborts its session.
pub fn aborting(random: &mut Random) -> Vec<u8> {
    let id = free_id(random);
    match random.below(8) {
        0 => random.bytes(11),
        1 => craft::message(id, 0xb000, &[]),
        2 => craft::message(0, craft::REQUEST, &[]),
        3 => craft::message(id, craft::REQUEST, &craft::tlv(message::RETRY_DELAY, &[0; 4])),
        4 => craft::keepalive(0, 1, 1),
        5 => craft::message(id, craft::REQUEST, &craft::tlv(message::UNSUBSCRIBE, &[0, 1])),
        6 => craft::message(0, craft::REQUEST, &craft::tlv(message::UNSUBSCRIBE, &[0; 3])),
        _ => craft::reconfirm(&[0], 255, 1, &[]),
    }
}

/// A SUBSCRIBE to much: any type and class of a name that many records have.
pub fn wide(generator: &mut Generator) -> Vec<u8> {
    let name = generator.name();
    let random = &mut generator.random;
    craft::subscribe(free_id(random), &name, *random.pick(&[255, 255, 1]), *random.pick(&[255, 1]))
}

/// A batch: most often about records that one of the subscriptions asks for.
pub fn batch(server: &Server, asked: &[Subscription], generator: &mut Generator) -> Vec<u8> {
    match generator.random.below(24) {
        0 | 1 => limits::batch(server, &mut generator.random),
        2 => {
            let mut edits = generator.edits(server);
            damage(&mut edits, &mut generator.random);
            edits
        }
        3..=10 if !asked.is_empty() => {
            let count = 1 + generator.random.below(3);
            (0..count).flat_map(|_| aimed(&generator.random.pick(asked).question.clone(), server, generator)).collect()
        }
        _ => generator.edits(server),
    }
}

/// An edit of a record that a question asks for: one that is held goes or gets another TTL, or there is a new one.
fn aimed(question: &Question, server: &Server, generator: &mut Generator) -> Vec<u8> {
    let random = &mut generator.random;
    let held: Vec<_> = server.records.iter().filter(|record| crate::zone::matches(question, record)).collect();
    if !held.is_empty() && random.once_in(2) {
        let record = random.pick(&held);
        let ttl = if random.once_in(2) { TTL_ONE } else { pool::ttl(random) };
        return edit(&record.name, record.rtype, record.class, ttl, &record.rdata);
    }
    let plain = |asked: u16, other: u16| if matches!(asked, 0 | 255) { other } else { asked };
    let (rtype, class) = (pool::record_type(random), pool::record_class(random));
    let ttl = pool::ttl(random);
    edit(&question.name, plain(question.rtype, rtype), plain(question.class, class), ttl, &pool::rdata(random))
}

/// What the sessions hold, of all servers, but one session's.
pub fn held_beside(servers: &[&Server], session: Option<u64>) -> Vec<Subscription> {
    let one = |server: &&Server| {
        let others = server.sessions.iter().enumerate().filter(|(number, _)| Some(*number as u64) != session);
        others.filter_map(|(_, live)| live.as_ref()).flat_map(|live| live.subscriptions.clone()).collect::<Vec<_>>()
    };
    servers.iter().flat_map(one).collect()
}
