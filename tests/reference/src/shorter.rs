//! A search for a shorter list: over all lists of adds and true removals that bring an old view to a new one, the fewest
//! notifications and, apart from that, the fewest bytes.
//!
//! The search goes over all states that a client's records can take. It leaves out only notifications that cannot help:
//! removals that cover no record of either view, adds of records in neither view, and adds with a TTL in neither view, one
//! foreign TTL excepted. Dropping these from a list that works leaves a list that works and is shorter.

use crate::notices::{removals_of, size, Change};
use crate::zone::Record;
use std::cmp::Reverse;
use std::collections::BinaryHeap;

/// The most records that a searched case has.
pub const MAX_RECORDS: usize = 5;
/// What a client can hold of one record: nothing, or it with one of three TTLs.
const CHOICES: usize = 4;
const FOREIGN_TTL: u32 = 0x0bad_cafe;

/// The least that a list needs.
#[derive(Clone, Copy, Debug, PartialEq, Eq)]
pub struct Least {
    pub notices: usize,
    pub bytes: usize,
}

struct Move {
    bytes: usize,
    effect: Effect,
}

enum Effect {
    Set { record: usize, choice: usize },
    Drop { covered: Vec<bool> },
}

/// The least over all lists from the old view to the new, or `None` where the case has too many records to search.
pub fn least(old: &[Record], new: &[Record], new_records: &[Record]) -> Option<Least> {
    let mut records = old.to_vec();
    records.extend(new.iter().filter(|record| !old.iter().any(|other| other.same(record))).cloned());
    if records.len() > MAX_RECORDS {
        return None;
    }
    let ttls: Vec<[u32; CHOICES - 1]> = records.iter().map(|record| choices(record, old, new)).collect();
    let moves = moves(&records, &ttls, new_records);
    let (start, goal) = (state(&records, &ttls, old), state(&records, &ttls, new));
    let notices = cheapest(start, goal, records.len(), &moves, |_| 1)?;
    let bytes = cheapest(start, goal, records.len(), &moves, |step| step.bytes)?;
    Some(Least { notices, bytes })
}

/// The TTLs that a record may take: the old one, the new one, and one that neither view has.
fn choices(record: &Record, old: &[Record], new: &[Record]) -> [u32; CHOICES - 1] {
    let ttl_in = |view: &[Record]| view.iter().find(|other| other.same(record)).map(|other| other.ttl);
    let before = ttl_in(old).or(ttl_in(new)).unwrap_or(0);
    let after = ttl_in(new).unwrap_or(before);
    [before, after, FOREIGN_TTL]
}

/// A view as a number: for each record one digit, 0 for absent, otherwise the first choice with its TTL.
fn state(records: &[Record], ttls: &[[u32; CHOICES - 1]], view: &[Record]) -> usize {
    let digit = |at: usize| match view.iter().find(|other| other.same(&records[at])) {
        Some(held) => 1 + ttls[at].iter().position(|ttl| *ttl == held.ttl).expect("a TTL of a view is a choice"),
        None => 0,
    };
    (0..records.len()).rev().fold(0, |value, at| value * CHOICES + digit(at))
}

fn moves(records: &[Record], ttls: &[[u32; CHOICES - 1]], new_records: &[Record]) -> Vec<Move> {
    let mut moves = Vec::new();
    for (at, record) in records.iter().enumerate() {
        for (choice, ttl) in ttls[at].iter().enumerate() {
            let first = ttls[at].iter().position(|other| other == ttl) == Some(choice);
            if first {
                moves.push(Move {
                    bytes: size(&Change::Add(record.clone())),
                    effect: Effect::Set { record: at, choice: choice + 1 },
                });
            }
        }
        for removal in removals_of(record).into_iter().filter(|removal| removal.is_true(new_records)) {
            let covered = records.iter().map(|other| removal.covers(other)).collect();
            moves.push(Move { bytes: size(&Change::Remove(removal)), effect: Effect::Drop { covered } });
        }
    }
    moves
}

fn after(state: usize, effect: &Effect, count: usize) -> usize {
    let mut digits: Vec<usize> = (0..count).map(|at| state / CHOICES.pow(at as u32) % CHOICES).collect();
    match effect {
        Effect::Set { record, choice } => digits[*record] = *choice,
        Effect::Drop { covered } => {
            digits.iter_mut().zip(covered).filter(|(_, covered)| **covered).for_each(|(digit, _)| *digit = 0);
        }
    }
    digits.into_iter().rev().fold(0, |value, digit| value * CHOICES + digit)
}

/// The cheapest way from one state to another (Dijkstra), over all moves.
fn cheapest(start: usize, goal: usize, count: usize, moves: &[Move], cost: impl Fn(&Move) -> usize) -> Option<usize> {
    let mut best = vec![usize::MAX; CHOICES.pow(count as u32)];
    let mut open = BinaryHeap::from([Reverse((0, start))]);
    best[start] = 0;
    while let Some(Reverse((spent, state))) = open.pop() {
        if state == goal {
            return Some(spent);
        }
        if spent > best[state] {
            continue;
        }
        for step in moves {
            let (next, total) = (after(state, &step.effect, count), spent + cost(step));
            if total < best[next] {
                best[next] = total;
                open.push(Reverse((total, next)));
            }
        }
    }
    None
}
