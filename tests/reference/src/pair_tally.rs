//! What pairs of runs came to, counted from their lines and from what the program printed.

use crate::isolation::LEAST_REFUSAL;
use crate::pair::{Asked, Runs, Step};
use crate::printed::Printed;
use std::collections::{BTreeMap, BTreeSet};

/// What is counted, in the order of the report.
#[derive(Clone, Copy, Debug, PartialEq, Eq, PartialOrd, Ord)]
pub enum Group {
    Number,
    End,
    Answer,
    Reply,
    Batch,
    Bytes,
    Others,
    Otherwise,
    Left,
}

const TITLES: [(Group, &str); 9] = [
    (Group::Number, "the session's number"),
    (Group::End, "its ends"),
    (Group::Answer, "answers to its calls"),
    (Group::Reply, "replies to it by RCODE"),
    (Group::Batch, "batches of both runs"),
    (Group::Bytes, "bytes of batches to it, in each run"),
    (Group::Others, "messages of others"),
    (Group::Otherwise, "answered otherwise in the two runs"),
    (Group::Left, "not compared"),
];

/// Where a line stands: up to the session's open, behind it up to its end, or further on.
#[derive(Clone, Copy, Debug, PartialEq, Eq)]
pub enum Part {
    Before,
    Compared,
    Further,
}

/// What is counted of a group, with a number where it has one.
type Key = (Group, String, Option<u64>);

#[derive(Default)]
pub struct PairTally {
    /// Calls from behind the session's open to its end, of both runs.
    pub calls: u64,
    counts: BTreeMap<Key, u64>,
    /// The IDs and the questions, in hex, for which the session's SUBSCRIBEs were accepted.
    held: BTreeSet<String>,
    /// Whether the last line is another session's message that one run has alone.
    after_extra: bool,
    /// How many such messages there are to each number before the session's open.
    before: BTreeMap<Option<u64>, u64>,
}

impl PairTally {
    pub fn note(&mut self, group: Group, what: &str, number: Option<u64>) {
        self.note_many(group, what, number, 1);
    }

    pub fn note_many(&mut self, group: Group, what: &str, number: Option<u64>, count: u64) {
        *self.counts.entry((group, what.to_string(), number)).or_default() += count;
    }

    pub fn add(&mut self, other: &PairTally) {
        self.calls += other.calls;
        for (key, count) in &other.counts {
            *self.counts.entry(key.clone()).or_default() += count;
        }
    }

    pub fn count(&self, group: Group, what: &str, number: Option<u64>) -> u64 {
        self.counts.get(&(group, what.to_string(), number)).copied().unwrap_or(0)
    }

    pub fn report(&self) -> String {
        let one = |(group, title): &(Group, &str)| {
            let counts: Vec<String> = self.counts.iter().filter(|(key, _)| key.0 == *group).map(written).collect();
            format!("{title}: {}\n", if counts.is_empty() { "none".to_string() } else { counts.join(", ") })
        };
        TITLES.iter().map(one).collect()
    }

    /// A line of one run or of both.
    pub fn note_call(&mut self, step: &Step, asked: &Asked, part: Part) {
        let calls = if asked.is_call() { step.runs.each().len() as u64 } else { 0 };
        match part {
            Part::Before => self.note_many(Group::Left, "calls up to its open", None, calls),
            Part::Compared => self.calls += calls,
            Part::Further => self.note_many(Group::Left, "calls further on", None, calls),
        }
        self.after_extra = step.runs != Runs::Both;
    }

    pub fn note_open(&mut self, session: u64) {
        self.note(Group::Number, "", Some(session));
        let count = self.before.get(&Some(session)).copied().unwrap_or(0);
        self.note_many(Group::Others, "in one run to its number before its open", None, count);
    }

    /// A line before the session's open.
    pub fn note_before(&mut self, step: &Step, asked: &Asked, both: [&[Printed]; 2]) {
        if step.runs != Runs::Both {
            *self.before.entry(asked.session).or_default() += 1;
        }
        self.note_others(step, asked, both);
    }

    /// A call of the session itself, answered alike in both runs.
    pub fn note_own(&mut self, asked: &Asked, line: &[u8], printed: &[Printed]) {
        let Some(first) = printed.first() else { return };
        self.note(Group::Answer, asked.verb, Some(first.answer));
        let Some(code) = rcode(first).filter(|_| asked.is_sent()) else { return };
        self.note(Group::Reply, "", Some(code));
        if let Some((id, question)) = subscribe(line).filter(|_| code == 0) {
            self.held.extend([id, question]);
        }
    }

    /// What a batch told in each run. The session was told the same in both.
    pub fn note_batch(&mut self, session: u64, both: [&[Printed]; 2]) {
        both.iter().for_each(|printed| self.note_told(session, printed));
        if let Some(line) = both[0].iter().find(|line| line.session == Some(session)) {
            self.note(Group::Bytes, "PUSHes", None);
            self.note_many(Group::Bytes, "bytes", None, line.value.len() as u64 / 2);
        }
    }

    /// What it told in one run: the session, or others, or both.
    fn note_told(&mut self, session: u64, printed: &[Printed]) {
        let own = printed.iter().find(|line| line.session == Some(session));
        let others = printed.iter().any(|line| line.session.is_some_and(|other| other != session));
        match (own.is_some(), others, printed.first()) {
            (true, true, _) => self.note(Group::Batch, "told it and others", None),
            (true, false, _) => self.note(Group::Batch, "told it alone", None),
            (false, true, _) => self.note(Group::Batch, "told others alone", None),
            (.., Some(line)) if line.answer >= LEAST_REFUSAL => self.note(Group::Batch, "refused", Some(line.answer)),
            _ => self.note(Group::Batch, "told nobody", None),
        }
    }

    pub fn note_end(&mut self, end: &'static str) {
        self.note(Group::End, end, None);
        if end == "tick" && self.after_extra {
            self.note(Group::Others, "right before the tick that ends it", None);
        }
    }

    /// A call that is not the session's own: another's message, or a call of both runs that prints something else in each.
    pub fn note_others(&mut self, step: &Step, asked: &Asked, both: [&[Printed]; 2]) {
        if asked.is_sent() {
            self.note_message(step, both);
        }
        let [Some(first), Some(second)] = both.map(|printed| printed.first()) else { return };
        let answers = (first.answer.min(second.answer), first.answer.max(second.answer));
        match (asked.verb, answers) {
            _ if both[0] == both[1] => {}
            ("open", (_, 13)) => self.note(Group::Otherwise, "open 1 and 13", None),
            ("open", _) => self.note(Group::Otherwise, "open under other numbers", None),
            ("close", (1, 10)) => self.note(Group::Otherwise, "close 1 and 10", None),
            ("batch", (1, 2)) => self.note(Group::Otherwise, "batch 1 and 2", None),
            ("tick", _) => self.note(Group::Otherwise, "tick ends others", None),
            (verb, _) => self.note(Group::Otherwise, &format!("{verb} in another way"), None),
        }
    }

    fn note_message(&mut self, step: &Step, both: [&[Printed]; 2]) {
        let runs = match step.runs {
            Runs::Both => "in both",
            Runs::First => "only in the first",
            Runs::Second => "only in the second",
        };
        self.note(Group::Others, runs, None);
        let printed: Vec<&Printed> = both.iter().filter_map(|printed| printed.first()).collect();
        if printed.iter().any(|line| line.answer == 4) {
            self.note(Group::Others, "with an abort", None);
        }
        if printed.iter().any(|line| rcode(line) == Some(2)) {
            self.note(Group::Others, "one subscription too many", None);
        }
        let Some((id, question)) = subscribe(&step.line) else { return };
        if self.held.contains(&id) {
            self.note(Group::Others, "subscribing with one of its IDs", None);
        }
        if self.held.contains(&question) {
            self.note(Group::Others, "subscribing to one of its questions", None);
        }
    }
}

/// A count, as in `msg 12: 5`, `12: 5` or `tick: 5`.
fn written(((_, what, number), count): (&Key, &u64)) -> String {
    match number {
        None => format!("{what}: {count}"),
        Some(number) => format!("{what}{}{number}: {count}", if what.is_empty() { "" } else { " " }),
    }
}

/// The RCODE of printed bytes: the low half of the sixth byte, the length prefix counted.
fn rcode(printed: &Printed) -> Option<u64> {
    let digit = printed.value.get(11..12).filter(|_| printed.answer == 2)?;
    u64::from_str_radix(digit, 16).ok()
}

/// The ID and the data of a message whose first TLV is a SUBSCRIBE, in hex.
fn subscribe(line: &[u8]) -> Option<(String, String)> {
    let bytes = std::str::from_utf8(line).ok()?.rsplit('\t').next()?;
    let (id, data) = (bytes.get(..4)?, bytes.get(32..)?);
    (bytes.get(24..28)? == "0040").then(|| (id.to_string(), data.to_string()))
}
