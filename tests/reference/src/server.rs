//! The server: four sessions, their subscriptions and clocks, and one zone's records.

use crate::call::{Answer, Call, Outcome, Refusal, SESSIONS};
use crate::message::{
    self, judge_in_session, ErrorCode, Judgment, Question, Subscription, Verdict, KEEPALIVE, MAX_MESSAGE, RETRY_DELAY,
};
use crate::notices::{changes, push, Change};
use crate::zone::{self, Fault, Record};
use crate::{craft, name};

/// How many bytes of output each session has.
pub const SESSION_OUTPUT: usize = 16_384;
/// How many bytes of output a message or a batch must be lent.
pub const OUTPUT: usize = SESSIONS * SESSION_OUTPUT;

const FIRST_TIMEOUT: u32 = 15_000;
const FIRST_INTERVAL: u32 = 15_000;
const GRANTED_TIMEOUT: u32 = 15_000;
const GRANTED_INTERVAL: u32 = 60_000;
const LEAST_INACTIVITY: u64 = 5_000;
const RETRY: u32 = 300_000;
const RETRY_TYPE_UNKNOWN: u32 = 3_600_000;
/// Flags of a reply without an error: QR and opcode 6.
const REPLY: u16 = 0xb000;

/// The two clocks of a session: when each last started, and the values granted to the client, in milliseconds.
#[derive(Clone, Debug, PartialEq, Eq)]
pub struct Clocks {
    pub inactivity_start: u64,
    pub keepalive_start: u64,
    pub timeout: u32,
    pub interval: u32,
}

impl Clocks {
    fn new(time: u64) -> Clocks {
        Clocks { inactivity_start: time, keepalive_start: time, timeout: FIRST_TIMEOUT, interval: FIRST_INTERVAL }
    }

    /// A time at or after both starts ends the session when the clocks have run out.
    fn run_out(&self, time: u64, subscribed: bool) -> bool {
        let silent = time - self.keepalive_start >= 2 * u64::from(self.interval);
        let limit = LEAST_INACTIVITY.max(2 * u64::from(self.timeout));
        silent || (!subscribed && time - self.inactivity_start >= limit)
    }

    /// The first time at which they have run out, if no message comes; the last of all times where there is none.
    pub fn end(&self, subscribed: bool) -> u64 {
        let silent = self.keepalive_start.saturating_add(2 * u64::from(self.interval));
        let idle = self.inactivity_start.saturating_add(LEAST_INACTIVITY.max(2 * u64::from(self.timeout)));
        if subscribed {
            silent
        } else {
            silent.min(idle)
        }
    }
}

#[derive(Clone, Debug, PartialEq, Eq)]
pub struct Session {
    pub subscriptions: Vec<Subscription>,
    pub clocks: Clocks,
}

#[derive(Clone, Debug, PartialEq, Eq)]
pub struct Server {
    pub zone: Vec<u8>,
    pub records: Vec<Record>,
    pub sessions: [Option<Session>; SESSIONS],
    /// The latest accepted time.
    pub latest: u64,
}

impl Server {
    pub fn start(zone: &[u8]) -> Result<Server, Refusal> {
        if !name::is_whole(zone) {
            return Err(Refusal::NoZoneName);
        }
        Ok(Server { zone: zone.to_vec(), records: Vec::new(), sessions: Default::default(), latest: 0 })
    }

    /// One call with room enough for its output.
    pub fn call(&mut self, call: &Call) -> Outcome {
        if call.time() < self.latest {
            return Outcome::refused(Refusal::TimeWentBack);
        }
        let outcome = match call {
            Call::Open { time } => self.open(*time),
            Call::Close { session, .. } => self.close(*session),
            Call::Message { time, session, bytes } => self.message(*time, *session, bytes),
            Call::Batch { edits, .. } => self.batch(edits),
            Call::Tick { time } => self.tick(*time),
        };
        if !outcome.is_refused() {
            self.latest = call.time();
        }
        outcome
    }

    /// One call with the output lent as a slice; session s writes from s x 16,384.
    pub fn call_into(&mut self, call: &Call, out: &mut [u8]) -> Outcome {
        if call.writes() && out.len() < OUTPUT {
            return Outcome::refused(Refusal::ShortOutput);
        }
        let outcome = self.call(call);
        for (session, bytes) in outcome.output.iter().enumerate() {
            let start = session * SESSION_OUTPUT;
            assert!(bytes.len() <= SESSION_OUTPUT, "a session's output fits");
            if !bytes.is_empty() {
                out[start..start + bytes.len()].copy_from_slice(bytes);
            }
        }
        outcome
    }

    /// The number of an open session.
    fn find(&self, session: u64) -> Option<usize> {
        let number = usize::try_from(session).ok()?;
        self.sessions.get(number)?.as_ref()?;
        Some(number)
    }

    fn open(&mut self, time: u64) -> Outcome {
        let Some(free) = self.sessions.iter().position(Option::is_none) else {
            return Outcome::refused(Refusal::AllOpen);
        };
        self.sessions[free] = Some(Session { subscriptions: Vec::new(), clocks: Clocks::new(time) });
        Outcome { opened: Some(free), ..Outcome::of(Answer::Done) }
    }

    fn close(&mut self, session: u64) -> Outcome {
        let Some(number) = self.find(session) else {
            return Outcome::refused(Refusal::NoSession);
        };
        self.sessions[number] = None;
        Outcome::of(Answer::Done)
    }

    fn message(&mut self, time: u64, session: u64, bytes: &[u8]) -> Outcome {
        let Some(number) = self.find(session) else {
            return Outcome::refused(Refusal::NoSession);
        };
        if bytes.len() > MAX_MESSAGE {
            return Outcome::refused(Refusal::LongMessage);
        }
        let live = self.sessions[number].as_mut().expect("an open session");
        let judgment = judge_in_session(bytes, &self.zone, &live.subscriptions);
        if judgment.verdict == Verdict::Abort {
            self.sessions[number] = None;
            return Outcome::of(Answer::Aborted);
        }
        restart(&mut live.clocks, time, &judgment);
        let (answer, output) = respond(live, &self.records, bytes, judgment.verdict);
        let mut outcome = Outcome::of(answer);
        outcome.output[number] = output;
        outcome
    }

    fn batch(&mut self, edits: &[u8]) -> Outcome {
        let new = match zone::apply(&self.records, &self.zone, edits) {
            Ok(records) => records,
            Err(fault) => return Outcome::refused(refusal_of(fault)),
        };
        let mut outcome = Outcome::of(Answer::Done);
        for (number, session) in self.sessions.iter().enumerate() {
            let Some(session) = session else { continue };
            let list = changes(&self.records, &new, &session.subscriptions);
            if !list.is_empty() {
                outcome.answer = Answer::Sent;
                outcome.output[number] = prefixed(&push(&list));
            }
        }
        self.records = new;
        outcome
    }

    fn tick(&mut self, time: u64) -> Outcome {
        let mut outcome = Outcome::of(Answer::Done);
        for (number, place) in self.sessions.iter_mut().enumerate() {
            let Some(session) = place else { continue };
            if session.clocks.run_out(time, !session.subscriptions.is_empty()) {
                *place = None;
                outcome.ended[number] = true;
            }
        }
        outcome
    }
}

fn refusal_of(fault: Fault) -> Refusal {
    match fault {
        Fault::Unparsed => Refusal::BatchUnparsed,
        Fault::Value => Refusal::EditValue,
        Fault::TooManyEdits => Refusal::TooManyEdits,
        Fault::Full => Refusal::TableFull,
    }
}

/// A received message restarts both clocks; one that came to the test of its first TLV as a Keepalive, only the keepalive clock.
fn restart(clocks: &mut Clocks, time: u64, judgment: &Judgment) {
    clocks.keepalive_start = time;
    if !judgment.keepalive {
        clocks.inactivity_start = time;
    }
}

/// Carries out a verdict that is no abort.
fn respond(session: &mut Session, records: &[Record], request: &[u8], verdict: Verdict) -> (Answer, Vec<u8>) {
    match verdict {
        Verdict::NotOurs => (Answer::NotOurs, Vec::new()),
        Verdict::Abort => (Answer::Aborted, Vec::new()),
        Verdict::Error(code) => (Answer::Sent, error_reply(message::id(request), code)),
        Verdict::Keepalive => (Answer::Sent, grant(session, message::id(request))),
        Verdict::Subscribe(question) => (Answer::Sent, subscribe(session, records, message::id(request), question)),
        Verdict::Unsubscribe(id) => {
            session.subscriptions.retain(|subscription| subscription.id != id);
            (Answer::Done, Vec::new())
        }
        Verdict::Reconfirm(parts) => (Answer::Reconfirm(parts), Vec::new()),
    }
}

fn grant(session: &mut Session, id: u16) -> Vec<u8> {
    session.clocks.timeout = GRANTED_TIMEOUT;
    session.clocks.interval = GRANTED_INTERVAL;
    let data = [GRANTED_TIMEOUT.to_be_bytes(), GRANTED_INTERVAL.to_be_bytes()].concat();
    prefixed(&craft::message(id, REPLY, &craft::tlv(KEEPALIVE, &data)))
}

fn subscribe(session: &mut Session, records: &[Record], id: u16, question: Question) -> Vec<u8> {
    let initial: Vec<Change> =
        records.iter().filter(|record| zone::matches(&question, record)).cloned().map(Change::Add).collect();
    session.subscriptions.push(Subscription { id, question });
    let mut output = prefixed(&craft::message(id, REPLY, &[]));
    if !initial.is_empty() {
        output.extend_from_slice(&prefixed(&push(&initial)));
    }
    output
}

fn error_reply(id: u16, code: ErrorCode) -> Vec<u8> {
    let delay = if code == ErrorCode::DsoTypeNi { RETRY_TYPE_UNKNOWN } else { RETRY };
    prefixed(&craft::message(id, REPLY | code as u16, &craft::tlv(RETRY_DELAY, &delay.to_be_bytes())))
}

/// A message with its two-byte length prefix.
fn prefixed(message: &[u8]) -> Vec<u8> {
    let mut bytes = (message.len() as u16).to_be_bytes().to_vec();
    bytes.extend_from_slice(message);
    bytes
}
