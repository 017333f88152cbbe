//! The zone's records and batches of edits. What a record is stands behind an `Rc`, so that the store before a batch and the one
//! after it share it.

use crate::message::ANY;
use crate::server::Refusal;
use crate::wire::{be16, be32, name_length, within, Name};
use std::rc::Rc;

pub const MAX_RECORDS: usize = 40;
pub const MAX_EDITS: usize = 32;
const MAX_RDATA: usize = 128;
const MAX_TTL: u32 = 0x7fff_ffff;
/// The TTL of an edit that deletes.
const DELETE: u32 = 0xffff_ffff;
pub const CNAME: u16 = 5;

#[derive(Debug)]
pub struct Key {
    pub name: Name,
    pub rtype: u16,
    pub class: u16,
    pub rdata: Box<[u8]>,
}

#[derive(Clone, Debug)]
pub struct Record {
    pub key: Rc<Key>,
    pub ttl: u32,
}

impl Record {
    /// Whether both are the same record, spelling and TTL aside.
    pub fn same(&self, other: &Record) -> bool {
        let (a, b) = (&self.key, &other.key);
        Rc::ptr_eq(a, b) || (a.rtype == b.rtype && a.class == b.class && a.rdata == b.rdata && a.name.same(&b.name))
    }
}

struct Edit<'a> {
    name: &'a [u8],
    rtype: u16,
    class: u16,
    ttl: u32,
    rdata: &'a [u8],
}

/// The edit at the front of the bytes, and what follows it.
fn read_edit(bytes: &[u8]) -> Option<(Edit<'_>, &[u8])> {
    let (name, rest) = bytes.split_at(name_length(bytes)?);
    if rest.len() < 10 {
        return None;
    }
    let (fixed, rest) = rest.split_at(10);
    let length = usize::from(be16(fixed, 8));
    if rest.len() < length {
        return None;
    }
    let (rdata, rest) = rest.split_at(length);
    Some((Edit { name, rtype: be16(fixed, 0), class: be16(fixed, 2), ttl: be32(fixed, 4), rdata }, rest))
}

impl Edit<'_> {
    fn is_allowed(&self, zone: &[u8]) -> bool {
        let plain = |field: u16| field != 0 && field != ANY;
        (self.ttl <= MAX_TTL || self.ttl == DELETE)
            && plain(self.rtype)
            && plain(self.class)
            && self.rdata.len() <= MAX_RDATA
            && within(zone, self.name)
    }

    fn is_of(&self, key: &Key) -> bool {
        key.rtype == self.rtype && key.class == self.class && *key.rdata == *self.rdata && key.name.spells(self.name)
    }

    fn key(&self) -> Key {
        Key { name: Name::new(self.name), rtype: self.rtype, class: self.class, rdata: self.rdata.into() }
    }
}

/// The store after a batch: what is left of the old one in its order, then what is new.
pub fn apply(records: &[Record], zone: &[u8], batch: &[u8]) -> Result<Vec<Record>, Refusal> {
    let mut new = records.to_vec();
    let mut rest = batch;
    for count in 0.. {
        if rest.is_empty() {
            break;
        }
        if count == MAX_EDITS {
            return Err(Refusal::TooManyEdits);
        }
        let (edit, after) = read_edit(rest).ok_or(Refusal::BatchUnparsed)?;
        if !edit.is_allowed(zone) {
            return Err(Refusal::EditValue);
        }
        let held = new.iter().position(|record| edit.is_of(&record.key));
        match held {
            Some(at) if edit.ttl == DELETE => {
                new.remove(at);
            }
            Some(at) => new[at].ttl = edit.ttl,
            None if edit.ttl == DELETE => {}
            None if new.len() == MAX_RECORDS => return Err(Refusal::TableFull),
            None => new.push(Record { key: Rc::new(edit.key()), ttl: edit.ttl }),
        }
        rest = after;
    }
    Ok(new)
}
