//! Random runs through the server and the observer, with a search for shorter lists on small cases.

use crate::call::{Call, Outcome, SESSIONS};
use crate::craft::{dotted, stretched};
use crate::generate::Generator;
use crate::notices::{changes, read_push, size, Change, Scope};
use crate::observer::{Observer, Pushes};
use crate::replay::write_line;
use crate::server::{Server, OUTPUT, SESSION_OUTPUT};
use crate::shorter;
use crate::timing::Timing;
use crate::zone::{view, Record};
use std::collections::BTreeMap;

const CALLS_PER_RUN: u64 = 300;

/// What was counted over all runs.
#[derive(Default)]
pub struct Counts {
    pub calls: u64,
    pub answers: BTreeMap<u32, u64>,
    /// Replies by RCODE.
    pub replies: BTreeMap<u8, u64>,
    pub pushes: u64,
    pub adds: u64,
    pub singles: u64,
    pub rrsets: u64,
    pub classes: u64,
    pub names: u64,
    pub searched: u64,
}

/// A fault: the run's seed, its zone, the calls that show it, and what it is.
pub struct Failure {
    pub seed: u64,
    pub zone: Vec<u8>,
    pub calls: Vec<Call>,
    pub fault: String,
}

/// One server under observation.
struct Trial {
    server: Server,
    observer: Observer,
    timing: Timing,
    out: Vec<u8>,
}

pub fn run(seed: u64, calls: u64) -> Result<Counts, Box<Failure>> {
    let mut counts = Counts::default();
    let mut run_seed = seed;
    while counts.calls < calls {
        one_run(run_seed, CALLS_PER_RUN.min(calls - counts.calls), &mut counts)?;
        run_seed = run_seed.wrapping_add(1);
    }
    Ok(counts)
}

/// The zone of a run.
pub fn zone_of(seed: u64) -> Vec<u8> {
    match seed % 8 {
        0 => vec![0],
        1 => dotted("EXAMPLE"),
        2 => stretched(&dotted("shop.example"), 251, b'z'),
        _ => dotted("shop.example"),
    }
}

fn one_run(seed: u64, length: u64, counts: &mut Counts) -> Result<(), Box<Failure>> {
    let zone = zone_of(seed);
    let mut generator = Generator::new(seed, &zone);
    let mut trial = Trial::new(&zone);
    if seed % 5 == 4 {
        trial.server.latest = u64::MAX - 10_000_000;
    }
    let first = trial.server.latest;
    let mut calls = Vec::new();
    for _ in 0..length {
        let call = if generator.random.once_in(300) {
            generator.longest(&trial.server)
        } else {
            generator.next(&trial.server)
        };
        calls.push(call.clone());
        trial.step(&call, counts).map_err(|fault| {
            let calls = shortened(&zone, first, &calls);
            Box::new(Failure { seed, zone: zone.clone(), calls, fault })
        })?;
    }
    Ok(())
}

/// The failing calls without those that can be left out one by one.
fn shortened(zone: &[u8], first: u64, calls: &[Call]) -> Vec<Call> {
    let fails = |calls: &[Call]| {
        let mut trial = Trial::new(zone);
        trial.server.latest = first;
        calls.iter().any(|call| trial.step(call, &mut Counts::default()).is_err())
    };
    let mut kept = calls.to_vec();
    let mut at = 0;
    while at < kept.len() {
        let mut fewer = kept.clone();
        fewer.remove(at);
        if fails(&fewer) {
            kept = fewer;
        } else {
            at += 1;
        }
    }
    kept
}

impl Trial {
    fn new(zone: &[u8]) -> Trial {
        let server = Server::start(zone).expect("the zone's name is a name");
        Trial {
            server,
            observer: Observer::default(),
            timing: Timing::default(),
            out: (0..OUTPUT).map(|at| at as u8 ^ 0x5a).collect(),
        }
    }

    fn step(&mut self, call: &Call, counts: &mut Counts) -> Result<(), String> {
        let before = self.server.clone();
        self.try_short_output(call)?;
        let old_out = self.out.clone();
        let outcome = self.server.call_into(call, &mut self.out);
        self.check_state(call, &outcome, &before)?;
        check_out(&outcome, &old_out, &self.out)?;
        self.timing.observe(call, &outcome, &self.observer)?;
        let pushes = self.observer.observe(call, &from_slice(&outcome, &self.out))?;
        if matches!(call, Call::Batch { .. }) {
            self.check_batch(&outcome, &before, counts)?;
        }
        counts.note(&outcome, &pushes);
        Ok(())
    }

    /// With less output lent than there must be, nothing changes.
    fn try_short_output(&mut self, call: &Call) -> Result<(), String> {
        if !call.writes() {
            return Ok(());
        }
        let before = self.server.clone();
        let mut short = vec![0xee; if call.time() % 2 == 1 { 0 } else { OUTPUT - 1 }];
        let outcome = self.server.call_into(call, &mut short);
        let untouched = short.iter().all(|byte| *byte == 0xee) && self.server == before;
        match outcome.answer.number() == 12 && untouched {
            true => Ok(()),
            false => Err(format!("short output: {outcome:?}")),
        }
    }

    fn check_state(&self, call: &Call, outcome: &Outcome, before: &Server) -> Result<(), String> {
        if outcome.is_refused() {
            return if self.server == *before { Ok(()) } else { Err("a refused call changed something".to_string()) };
        }
        let server = &self.server;
        let fits = server.records.len() <= 40
            && server.sessions.iter().flatten().all(|session| session.subscriptions.len() <= 16);
        match fits && server.latest == call.time() {
            true => Ok(()),
            false => Err("a limit or the clock is wrong".to_string()),
        }
    }

    /// Each session's PUSH reads back as the fixed list, and no shorter list exists.
    fn check_batch(&self, outcome: &Outcome, before: &Server, counts: &mut Counts) -> Result<(), String> {
        for number in 0..SESSIONS {
            let Some(session) = &before.sessions[number] else {
                continue;
            };
            let list = changes(&before.records, &self.server.records, &session.subscriptions);
            let read = outcome.output[number].get(2..).and_then(read_push).unwrap_or_default();
            if list != read {
                return Err(format!("session {number}: {list:?} was meant, {read:?} is read"));
            }
            let old = view(&before.records, &session.subscriptions);
            let new = view(&self.server.records, &session.subscriptions);
            counts.searched += u64::from(!list.is_empty() && search(&list, &old, &new, &self.server.records)?);
        }
        Ok(())
    }
}

/// Whether the case was small enough to search; an error where a shorter list exists.
fn search(list: &[Change], old: &[Record], new: &[Record], new_records: &[Record]) -> Result<bool, String> {
    let Some(least) = shorter::least(old, new, new_records) else {
        return Ok(false);
    };
    let bytes: usize = list.iter().map(size).sum();
    match least.notices == list.len() && least.bytes == bytes {
        true => Ok(true),
        false => Err(format!("{} notices of {bytes} bytes, where {least:?} is enough: {list:?}", list.len())),
    }
}

/// Bytes beyond each stated count keep their values.
fn check_out(outcome: &Outcome, old: &[u8], new: &[u8]) -> Result<(), String> {
    for number in 0..SESSIONS {
        let start = number * SESSION_OUTPUT;
        let (written, end) = (start + outcome.output[number].len(), start + SESSION_OUTPUT);
        if old[written..end] != new[written..end] {
            return Err(format!("session {number}: bytes beyond the count changed"));
        }
    }
    Ok(())
}

/// The outcome with each session's bytes taken from the lent output.
fn from_slice(outcome: &Outcome, out: &[u8]) -> Outcome {
    let mut taken = outcome.clone();
    for (number, bytes) in taken.output.iter_mut().enumerate() {
        let start = number * SESSION_OUTPUT;
        *bytes = out[start..start + bytes.len()].to_vec();
    }
    taken
}

impl Counts {
    fn note(&mut self, outcome: &Outcome, pushes: &Pushes) {
        self.calls += 1;
        *self.answers.entry(outcome.answer.number()).or_default() += 1;
        self.pushes += pushes.len() as u64;
        for bytes in outcome.output.iter().filter(|bytes| bytes.len() > 2) {
            if bytes[4] & 0x80 != 0 {
                *self.replies.entry(bytes[5] & 15).or_default() += 1;
            }
            for change in read_push(&bytes[2..]).unwrap_or_default() {
                *self.counter(&change) += 1;
            }
        }
    }

    fn counter(&mut self, change: &Change) -> &mut u64 {
        match change {
            Change::Add(_) => &mut self.adds,
            Change::Remove(removal) => match removal.scope {
                Scope::Single { .. } => &mut self.singles,
                Scope::Rrset { .. } => &mut self.rrsets,
                Scope::AllTypes { .. } => &mut self.classes,
                Scope::AllClasses => &mut self.names,
            },
        }
    }

    pub fn report(&self) -> String {
        let answers: Vec<String> = self.answers.iter().map(|(answer, count)| format!("{answer}: {count}")).collect();
        let replies: Vec<String> = self.replies.iter().map(|(code, count)| format!("{code}: {count}")).collect();
        format!(
            "calls {}\nanswers {}\nreplies by RCODE {}\nPUSHes {}\nafter batches: adds {}, removals of one record {}, of an RRset {}, of all types {}, of all classes {}\nlists searched for a shorter one {}\n",
            self.calls,
            answers.join(", "),
            replies.join(", "),
            self.pushes,
            self.adds,
            self.singles,
            self.rrsets,
            self.classes,
            self.names,
            self.searched,
        )
    }
}

impl Failure {
    pub fn report(&self) -> String {
        let lines: Vec<String> = self.calls.iter().map(write_line).collect();
        format!(
            "fault: {}\nseed {}, zone {}, {} calls:\n{}\n",
            self.fault,
            self.seed,
            crate::hex::write(&self.zone),
            lines.len(),
            lines.join("\n")
        )
    }
}
