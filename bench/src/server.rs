//! The server: four sessions, their subscriptions and clocks, one zone's records. How a batch notifies is the one thing in which
//! the two servers differ.

use crate::incremental::Delta;
use crate::message::{judge, Judgment, Place, Rcode, ANY, KEEPALIVE, MAX_MESSAGE, RETRY_DELAY};
use crate::plain;
use crate::push::write_push;
use crate::wire::{be16, name_length, within, Name, Writer};
use crate::zone::{self, Key, Record, CNAME};

pub const SESSIONS: usize = 4;
pub const MAX_SUBSCRIPTIONS: usize = 16;
/// How many bytes of output each session has.
pub const SESSION_OUTPUT: usize = 16_384;
pub const OUTPUT: usize = SESSIONS * SESSION_OUTPUT;

const FIRST_INTERVAL: u32 = 15_000;
const TIMEOUT: u32 = 15_000;
const INTERVAL: u32 = 60_000;
const LEAST_INACTIVITY: u64 = 5_000;
const RETRY: u32 = 300_000;
const RETRY_TYPE_UNKNOWN: u32 = 3_600_000;
/// Flags of a response: QR and opcode 6.
const RESPONSE: u16 = 0xb000;

#[derive(Clone, Copy, Debug, PartialEq, Eq)]
pub enum Refusal {
    NoSession = 10,
    TimeWentBack = 11,
    ShortOutput = 12,
    AllOpen = 13,
    BatchUnparsed = 14,
    EditValue = 15,
    TooManyEdits = 16,
    TableFull = 17,
    LongMessage = 18,
    NoZoneName = 20,
}

#[derive(Clone, Copy, Debug, PartialEq, Eq)]
pub enum Answer {
    Done,
    Opened(usize),
    Ended([bool; SESSIONS]),
    /// So many bytes stand at each session's output.
    Sent([usize; SESSIONS]),
    NotOurs,
    Aborted,
    Reconfirm([Place; 4]),
    Refused(Refusal),
}

#[derive(Debug)]
pub struct Subscription {
    id: u16,
    name: Name,
    rtype: u16,
    class: u16,
}

impl Subscription {
    fn matches(&self, key: &Key) -> bool {
        (self.class == key.class || self.class == ANY)
            && (self.rtype == key.rtype || self.rtype == ANY || key.rtype == CNAME)
            && self.name.same(&key.name)
    }
}

#[derive(Debug)]
pub struct Session {
    subscriptions: Vec<Subscription>,
    inactivity_start: u64,
    keepalive_start: u64,
    timeout: u32,
    interval: u32,
}

impl Session {
    fn new(time: u64) -> Session {
        Session {
            subscriptions: Vec::new(),
            inactivity_start: time,
            keepalive_start: time,
            timeout: TIMEOUT,
            interval: FIRST_INTERVAL,
        }
    }

    pub fn sees(&self, key: &Key) -> bool {
        self.subscriptions.iter().any(|subscription| subscription.matches(key))
    }

    fn holds(&self, id: u16) -> bool {
        self.subscriptions.iter().any(|subscription| subscription.id == id)
    }

    fn has_run_out(&self, time: u64) -> bool {
        let limit = LEAST_INACTIVITY.max(2 * u64::from(self.timeout));
        time - self.keepalive_start >= 2 * u64::from(self.interval)
            || (self.subscriptions.is_empty() && time - self.inactivity_start >= limit)
    }

    /// Carries out a SUBSCRIBE whose ID is free; no bytes where the session is to be aborted.
    fn subscribe(
        &mut self,
        zone: &[u8],
        records: &[Record],
        (id, octets, rtype, class): (u16, &[u8], u16, u16),
        out: &mut [u8],
    ) -> Option<usize> {
        if !within(zone, octets) {
            return Some(write_error(out, id, Rcode::NotAuth));
        }
        let asked = |other: &Subscription| other.rtype == rtype && other.class == class && other.name.spells(octets);
        if self.subscriptions.iter().any(asked) {
            return None;
        }
        if self.subscriptions.len() == MAX_SUBSCRIPTIONS {
            return Some(write_error(out, id, Rcode::ServFail));
        }
        let subscription = Subscription { id, name: Name::new(octets), rtype, class };
        let mut writer = Writer::new(out);
        let start = writer.begin(id, RESPONSE);
        writer.finish(start);
        write_push(&mut writer, &[], records.iter().filter(|record| subscription.matches(&record.key)));
        self.subscriptions.push(subscription);
        Some(writer.at())
    }
}

fn write_error(out: &mut [u8], id: u16, code: Rcode) -> usize {
    let delay = if code == Rcode::DsoTypeNi { RETRY_TYPE_UNKNOWN } else { RETRY };
    let mut writer = Writer::new(out);
    let start = writer.begin(id, RESPONSE | code as u16);
    writer.put16(RETRY_DELAY);
    writer.put16(4);
    writer.put32(delay);
    writer.finish(start);
    writer.at()
}

fn write_keepalive(out: &mut [u8], id: u16) -> usize {
    let mut writer = Writer::new(out);
    let start = writer.begin(id, RESPONSE);
    writer.put16(KEEPALIVE);
    writer.put16(8);
    writer.put32(TIMEOUT);
    writer.put32(INTERVAL);
    writer.finish(start);
    writer.at()
}

/// A server that notifies incrementally or in the plain way.
pub struct Server<const INCREMENTAL: bool> {
    zone: Box<[u8]>,
    records: Vec<Record>,
    sessions: [Option<Session>; SESSIONS],
    latest: u64,
}

impl<const INCREMENTAL: bool> Server<INCREMENTAL> {
    pub fn start(zone: &[u8]) -> Result<Self, Refusal> {
        if name_length(zone) != Some(zone.len()) {
            return Err(Refusal::NoZoneName);
        }
        Ok(Server { zone: zone.into(), records: Vec::new(), sessions: Default::default(), latest: 0 })
    }

    pub fn open(&mut self, time: u64) -> Answer {
        if time < self.latest {
            return Answer::Refused(Refusal::TimeWentBack);
        }
        let Some(free) = self.sessions.iter().position(Option::is_none) else {
            return Answer::Refused(Refusal::AllOpen);
        };
        self.latest = time;
        self.sessions[free] = Some(Session::new(time));
        Answer::Opened(free)
    }

    pub fn close(&mut self, time: u64, session: u64) -> Answer {
        match self.find(time, session) {
            Err(refusal) => Answer::Refused(refusal),
            Ok(number) => {
                self.latest = time;
                self.sessions[number] = None;
                Answer::Done
            }
        }
    }

    /// The number of an open session, at a time that may be.
    fn find(&self, time: u64, session: u64) -> Result<usize, Refusal> {
        if time < self.latest {
            return Err(Refusal::TimeWentBack);
        }
        let number = usize::try_from(session).map_err(|_| Refusal::NoSession)?;
        match self.sessions.get(number) {
            Some(Some(_)) => Ok(number),
            _ => Err(Refusal::NoSession),
        }
    }

    pub fn message(&mut self, time: u64, session: u64, message: &[u8], out: &mut [u8]) -> Answer {
        if out.len() < OUTPUT {
            return Answer::Refused(Refusal::ShortOutput);
        }
        let number = match self.find(time, session) {
            Ok(number) => number,
            Err(refusal) => return Answer::Refused(refusal),
        };
        if message.len() > MAX_MESSAGE {
            return Answer::Refused(Refusal::LongMessage);
        }
        self.latest = time;
        let answer = self.receive(time, number, message, &mut out[number * SESSION_OUTPUT..]);
        if answer == Answer::Aborted {
            self.sessions[number] = None;
        }
        answer
    }

    fn receive(&mut self, time: u64, number: usize, message: &[u8], out: &mut [u8]) -> Answer {
        let live = self.sessions[number].as_mut().expect("an open session");
        let (judgment, keepalive) = judge(message);
        let id = || be16(message, 0);
        let written = match judgment {
            Judgment::Abort => return Answer::Aborted,
            Judgment::Keepalive | Judgment::Subscribe { .. } if live.holds(id()) => return Answer::Aborted,
            Judgment::NotOurs | Judgment::Reconfirm(_) => 0,
            Judgment::Error(code) => write_error(out, id(), code),
            Judgment::Keepalive => {
                live.timeout = TIMEOUT;
                live.interval = INTERVAL;
                write_keepalive(out, id())
            }
            Judgment::Subscribe { name, rtype, class } => {
                match live.subscribe(&self.zone, &self.records, (id(), name, rtype, class), out) {
                    Some(written) => written,
                    None => return Answer::Aborted,
                }
            }
            Judgment::Unsubscribe(id) => {
                live.subscriptions.retain(|subscription| subscription.id != id);
                0
            }
        };
        live.keepalive_start = time;
        if !keepalive {
            live.inactivity_start = time;
        }
        match judgment {
            Judgment::NotOurs => Answer::NotOurs,
            Judgment::Reconfirm(places) => Answer::Reconfirm(places),
            Judgment::Unsubscribe(_) => Answer::Done,
            _ => {
                let mut counts = [0; SESSIONS];
                counts[number] = written;
                Answer::Sent(counts)
            }
        }
    }

    pub fn batch(&mut self, time: u64, edits: &[u8], out: &mut [u8]) -> Answer {
        if out.len() < OUTPUT {
            return Answer::Refused(Refusal::ShortOutput);
        }
        if time < self.latest {
            return Answer::Refused(Refusal::TimeWentBack);
        }
        let new = match zone::apply(&self.records, &self.zone, edits) {
            Ok(new) => new,
            Err(refusal) => return Answer::Refused(refusal),
        };
        self.latest = time;
        let counts = self.notify(&new, out);
        self.records = new;
        if counts == [0; SESSIONS] {
            Answer::Done
        } else {
            Answer::Sent(counts)
        }
    }

    fn notify(&self, new: &[Record], out: &mut [u8]) -> [usize; SESSIONS] {
        let delta = INCREMENTAL.then(|| Delta::new(&self.records, new));
        let mut counts = [0; SESSIONS];
        for ((session, out), count) in self.sessions.iter().zip(out.chunks_mut(SESSION_OUTPUT)).zip(&mut counts) {
            let Some(session) = session else { continue };
            *count = match &delta {
                Some(delta) => delta.notify(session, out),
                None => plain::notify(session, &self.records, new, out),
            };
        }
        counts
    }

    pub fn tick(&mut self, time: u64) -> Answer {
        if time < self.latest {
            return Answer::Refused(Refusal::TimeWentBack);
        }
        self.latest = time;
        let mut ended = [false; SESSIONS];
        for (place, ended) in self.sessions.iter_mut().zip(&mut ended) {
            if place.as_ref().is_some_and(|session| session.has_run_out(time)) {
                *place = None;
                *ended = true;
            }
        }
        Answer::Ended(ended)
    }
}
