//! The zone's resource records: their table, matching, and batches of edits.

use crate::message::{be16, Question, Subscription, ANY};
use crate::name;

pub const MAX_RECORDS: usize = 40;
pub const MAX_EDITS: usize = 32;
pub const MAX_RDATA: usize = 128;
/// The highest TTL of a record; an edit with such a TTL puts, a change notification with one adds.
pub const MAX_TTL: u32 = 0x7fff_ffff;
/// The TTL of an edit that deletes one record, and of a change notification that removes one.
pub const TTL_ONE: u32 = 0xffff_ffff;
const CNAME: u16 = 5;

/// A resource record.
#[derive(Clone, Debug, PartialEq, Eq)]
pub struct Record {
    pub name: Vec<u8>,
    pub rtype: u16,
    pub class: u16,
    pub ttl: u32,
    pub rdata: Vec<u8>,
}

impl Record {
    /// Whether both are the same record: name, type, class and RDATA; spelling and TTL aside.
    pub fn same(&self, other: &Record) -> bool {
        self.rtype == other.rtype
            && self.class == other.class
            && self.rdata == other.rdata
            && name::same(&self.name, &other.name)
    }
}

/// The first fault of a batch, with its answer number.
#[derive(Clone, Copy, Debug, PartialEq, Eq)]
pub enum Fault {
    Unparsed = 14,
    Value = 15,
    TooManyEdits = 16,
    Full = 17,
}

/// Whether a subscription's question matches a record.
pub fn matches(question: &Question, record: &Record) -> bool {
    name::same(&question.name, &record.name)
        && (question.class == record.class || question.class == ANY)
        && (question.rtype == record.rtype || question.rtype == ANY || record.rtype == CNAME)
}

/// The records that at least one of the subscriptions matches, each once, in the order of the table.
pub fn view(records: &[Record], subscriptions: &[Subscription]) -> Vec<Record> {
    let seen = |record: &&Record| subscriptions.iter().any(|subscription| matches(&subscription.question, record));
    records.iter().filter(seen).cloned().collect()
}

/// The table after a batch, or the batch's first fault.
pub fn apply(records: &[Record], zone: &[u8], batch: &[u8]) -> Result<Vec<Record>, Fault> {
    let mut records = records.to_vec();
    let mut place = 0;
    let mut edits = 0;
    while place < batch.len() {
        if edits == MAX_EDITS {
            return Err(Fault::TooManyEdits);
        }
        let (edit, end) = read_record(batch, place).ok_or(Fault::Unparsed)?;
        if !allowed(&edit, zone) {
            return Err(Fault::Value);
        }
        apply_edit(&mut records, edit)?;
        place = end;
        edits += 1;
    }
    Ok(records)
}

/// The record in the layout of a change notification that starts at `place`, and where it ends.
pub fn read_record(bytes: &[u8], place: usize) -> Option<(Record, usize)> {
    let fixed = place + name::read(bytes, place)?;
    let start = fixed + 10;
    if bytes.len() < start {
        return None;
    }
    let end = start + usize::from(be16(bytes, fixed + 8));
    if bytes.len() < end {
        return None;
    }
    let ttl = u32::from(be16(bytes, fixed + 4)) << 16 | u32::from(be16(bytes, fixed + 6));
    let record = Record {
        name: bytes[place..fixed].to_vec(),
        rtype: be16(bytes, fixed),
        class: be16(bytes, fixed + 2),
        ttl,
        rdata: bytes[start..end].to_vec(),
    };
    Some((record, end))
}

fn allowed(edit: &Record, zone: &[u8]) -> bool {
    let plain = |field: u16| field != 0 && field != ANY;
    (edit.ttl <= MAX_TTL || edit.ttl == TTL_ONE)
        && plain(edit.rtype)
        && plain(edit.class)
        && edit.rdata.len() <= MAX_RDATA
        && name::within(zone, &edit.name)
}

fn apply_edit(records: &mut Vec<Record>, edit: Record) -> Result<(), Fault> {
    let held = records.iter().position(|record| record.same(&edit));
    match (edit.ttl == TTL_ONE, held) {
        (true, Some(at)) => {
            records.remove(at);
        }
        (true, None) => {}
        (false, Some(at)) => records[at].ttl = edit.ttl,
        (false, None) if records.len() >= MAX_RECORDS => return Err(Fault::Full),
        (false, None) => records.push(edit),
    }
    Ok(())
}
