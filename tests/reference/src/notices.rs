//! Change notifications (RFC 8765, 6.3.1): which list brings a client from the old view to the new, and its bytes.

use crate::message::{be16, Subscription, ANY, HEADER, OPCODE_DSO, PUSH, TLV_HEADER};
use crate::name;
use crate::zone::{read_record, view, Record, MAX_TTL, TTL_ONE};

/// The TTL of a change notification that removes more than one record.
pub const TTL_COLLECTIVE: u32 = 0xffff_fffe;

/// How much a removal takes of its name.
#[derive(Clone, Debug, PartialEq, Eq)]
pub enum Scope {
    AllClasses,
    AllTypes { class: u16 },
    Rrset { rtype: u16, class: u16 },
    Single { rtype: u16, class: u16, rdata: Vec<u8> },
}

#[derive(Clone, Debug, PartialEq, Eq)]
pub struct Removal {
    pub name: Vec<u8>,
    pub scope: Scope,
}

#[derive(Clone, Debug, PartialEq, Eq)]
pub enum Change {
    Remove(Removal),
    Add(Record),
}

impl Removal {
    pub fn covers(&self, record: &Record) -> bool {
        let inside = match &self.scope {
            Scope::AllClasses => true,
            Scope::AllTypes { class } => *class == record.class,
            Scope::Rrset { rtype, class } => (*rtype, *class) == (record.rtype, record.class),
            Scope::Single { rtype, class, rdata } => {
                (*rtype, *class, rdata) == (record.rtype, record.class, &record.rdata)
            }
        };
        inside && name::same(&self.name, &record.name)
    }

    /// A removal is true where it covers no record of the new table.
    pub fn is_true(&self, new_records: &[Record]) -> bool {
        !new_records.iter().any(|record| self.covers(record))
    }
}

/// The four removals that hold a record, spelled as it is, from the widest to the narrowest.
pub fn removals_of(record: &Record) -> [Removal; 4] {
    let (rtype, class) = (record.rtype, record.class);
    [
        Scope::AllClasses,
        Scope::AllTypes { class },
        Scope::Rrset { rtype, class },
        Scope::Single { rtype, class, rdata: record.rdata.clone() },
    ]
    .map(|scope| Removal { name: record.name.clone(), scope })
}

/// The removal for a leaving record: the widest true one, then the narrowest collective one that covers the same leaving
/// records; the single one only where the RRset is not gone.
fn removal_for(record: &Record, leaving: &[&Record], new_records: &[Record]) -> Removal {
    let covered = |removal: &Removal| leaving.iter().map(|other| removal.covers(other)).collect::<Vec<_>>();
    let candidates = removals_of(record);
    let widest = candidates
        .iter()
        .find(|removal| removal.is_true(new_records))
        .expect("a record that left is covered by its own removal");
    if matches!(widest.scope, Scope::Single { .. }) {
        return widest.clone();
    }
    let wanted = covered(widest);
    candidates[..3].iter().rev().find(|removal| covered(removal) == wanted).expect("the widest covers the same").clone()
}

/// The list for one session: removals by the first leaving record that each covers, then adds in the new table's order.
pub fn changes(old_records: &[Record], new_records: &[Record], subscriptions: &[Subscription]) -> Vec<Change> {
    let (old, new) = (view(old_records, subscriptions), view(new_records, subscriptions));
    let leaving: Vec<&Record> = old.iter().filter(|record| !new.iter().any(|other| other.same(record))).collect();
    let mut removals: Vec<Removal> = Vec::new();
    for record in &leaving {
        if !removals.iter().any(|removal| removal.covers(record)) {
            removals.push(removal_for(record, &leaving, new_records));
        }
    }
    let known = |record: &Record| old.iter().any(|other| other.same(record) && other.ttl == record.ttl);
    let adds = new.iter().filter(|record| !known(record)).cloned().map(Change::Add);
    removals.into_iter().map(Change::Remove).chain(adds).collect()
}

fn write_change(change: &Change, bytes: &mut Vec<u8>) {
    let none = Vec::new();
    let (name, rtype, class, ttl, rdata) = match change {
        Change::Add(record) => (&record.name, record.rtype, record.class, record.ttl, &record.rdata),
        Change::Remove(Removal { name, scope }) => match scope {
            Scope::AllClasses => (name, 0, ANY, TTL_COLLECTIVE, &none),
            Scope::AllTypes { class } => (name, ANY, *class, TTL_COLLECTIVE, &none),
            Scope::Rrset { rtype, class } => (name, *rtype, *class, TTL_COLLECTIVE, &none),
            Scope::Single { rtype, class, rdata } => (name, *rtype, *class, TTL_ONE, rdata),
        },
    };
    bytes.extend_from_slice(name);
    bytes.extend_from_slice(&rtype.to_be_bytes());
    bytes.extend_from_slice(&class.to_be_bytes());
    bytes.extend_from_slice(&ttl.to_be_bytes());
    bytes.extend_from_slice(&(rdata.len() as u16).to_be_bytes());
    bytes.extend_from_slice(rdata);
}

/// How many bytes a change notification takes: its name's, ten, and its RDATA's.
pub fn size(change: &Change) -> usize {
    let mut bytes = Vec::new();
    write_change(change, &mut bytes);
    bytes.len()
}

/// The PUSH message of a list that is not empty, without its length prefix.
pub fn push(changes: &[Change]) -> Vec<u8> {
    let mut data = Vec::new();
    changes.iter().for_each(|change| write_change(change, &mut data));
    let mut message = vec![0, 0, OPCODE_DSO << 3, 0, 0, 0, 0, 0, 0, 0, 0, 0];
    message.extend_from_slice(&PUSH.to_be_bytes());
    message.extend_from_slice(&(data.len() as u16).to_be_bytes());
    message.extend_from_slice(&data);
    message
}

/// The list of a PUSH message; `None` where the bytes are not one.
pub fn read_push(message: &[u8]) -> Option<Vec<Change>> {
    let data = message.get(HEADER + TLV_HEADER..)?;
    let header = [0, 0, OPCODE_DSO << 3, 0, 0, 0, 0, 0, 0, 0, 0, 0];
    let framed = message[..HEADER] == header
        && be16(message, HEADER) == PUSH
        && usize::from(be16(message, HEADER + 2)) == data.len();
    if !framed || data.is_empty() {
        return None;
    }
    let mut changes = Vec::new();
    let mut place = 0;
    while place < data.len() {
        let (record, end) = read_record(data, place)?;
        changes.push(meaning(record)?);
        place = end;
    }
    Some(changes)
}

/// What a notification in the record layout says.
fn meaning(record: Record) -> Option<Change> {
    let Record { name, rtype, class, ttl, rdata } = record;
    let scope = match (ttl, rtype, class) {
        (TTL_COLLECTIVE, 0, ANY) => Scope::AllClasses,
        (_, _, ANY) => return None,
        (TTL_COLLECTIVE, ANY, _) => Scope::AllTypes { class },
        (_, ANY, _) => return None,
        (TTL_COLLECTIVE, ..) => Scope::Rrset { rtype, class },
        (TTL_ONE, ..) => return Some(Change::Remove(Removal { name, scope: Scope::Single { rtype, class, rdata } })),
        (0..=MAX_TTL, ..) => return Some(Change::Add(Record { name, rtype, class, ttl, rdata })),
        _ => return None,
    };
    rdata.is_empty().then_some(Change::Remove(Removal { name, scope }))
}
