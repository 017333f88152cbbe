//! What runs came to: answers by the line's verb, replies by RCODE, change notifications by kind.

use crate::call::{Call, Outcome};
use crate::notices::{read_push, Change, Scope};
use std::collections::BTreeMap;

#[derive(Default)]
pub struct Tally {
    answers: BTreeMap<(&'static str, u32), u64>,
    replies: BTreeMap<u8, u64>,
    changes: BTreeMap<&'static str, u64>,
    /// The most bytes that a call wrote for a session.
    longest: usize,
}

impl Tally {
    pub fn note(&mut self, verb: &'static str, answer: u32) {
        *self.answers.entry((verb, answer)).or_default() += 1;
    }

    pub fn note_outcome(&mut self, call: &Call, outcome: &Outcome) {
        self.note(call.verb(), outcome.answer.number());
        for bytes in outcome.output.iter().filter(|bytes| bytes.len() > 5) {
            self.longest = self.longest.max(bytes.len());
            if bytes[4] & 0x80 != 0 {
                *self.replies.entry(bytes[5] & 15).or_default() += 1;
            }
            for change in read_push(&bytes[2..]).unwrap_or_default() {
                *self.changes.entry(kind(&change)).or_default() += 1;
            }
        }
    }

    pub fn add(&mut self, other: &Tally) {
        other.answers.iter().for_each(|(key, count)| *self.answers.entry(*key).or_default() += count);
        other.replies.iter().for_each(|(key, count)| *self.replies.entry(*key).or_default() += count);
        self.longest = self.longest.max(other.longest);
        other.changes.iter().for_each(|(key, count)| *self.changes.entry(key).or_default() += count);
    }

    /// How many lines were calls.
    pub fn calls(&self) -> u64 {
        self.answers.iter().filter(|((verb, _), _)| *verb != "?").map(|(_, count)| count).sum()
    }

    pub fn report(&self) -> String {
        let mut answers: BTreeMap<&str, Vec<String>> = BTreeMap::new();
        for ((verb, answer), count) in &self.answers {
            answers.entry(verb).or_default().push(format!("{answer}: {count}"));
        }
        let by_verb: Vec<String> =
            answers.iter().map(|(verb, counts)| format!("answers to {verb}: {}\n", counts.join(", "))).collect();
        let replies: Vec<String> = self.replies.iter().map(|(code, count)| format!("{code}: {count}")).collect();
        let changes: Vec<String> = self.changes.iter().map(|(kind, count)| format!("{kind} {count}")).collect();
        format!(
            "{}replies by RCODE: {}\nnotifications after batches: {}\nthe most bytes for a session: {}\n",
            by_verb.concat(),
            replies.join(", "),
            changes.join(", "),
            self.longest
        )
    }
}

fn kind(change: &Change) -> &'static str {
    match change {
        Change::Add(_) => "adds",
        Change::Remove(removal) => match removal.scope {
            Scope::Single { .. } => "removals of one record",
            Scope::Rrset { .. } => "of an RRset",
            Scope::AllTypes { .. } => "of all types",
            Scope::AllClasses => "of all classes",
        },
    }
}
