//! The incremental way to notify: what the batch took from the store and put into it is found once, and only that is matched
//! with each session's subscriptions.

use crate::push::{removals, widest, write_push, Scope};
use crate::server::Session;
use crate::wire::Writer;
use crate::zone::{Key, Record};
use std::rc::Rc;

/// What a batch changed.
pub struct Delta<'a> {
    /// The records that are gone, in the old store's order, each with the widest true removal.
    gone: Vec<(&'a Key, Scope)>,
    /// The records that are new or have another TTL, in the new store's order.
    changed: Vec<&'a Record>,
}

impl<'a> Delta<'a> {
    /// What is left of the old store stands in its order at the front of the new one.
    pub fn new(old: &'a [Record], new: &'a [Record]) -> Delta<'a> {
        let mut changed = Vec::new();
        let mut missing = Vec::new();
        let mut kept = 0;
        for record in old {
            match new.get(kept) {
                Some(same) if Rc::ptr_eq(&same.key, &record.key) => {
                    if same.ttl != record.ttl {
                        changed.push(same);
                    }
                    kept += 1;
                }
                _ => missing.push(record),
            }
        }
        let put = &new[kept..];
        let back = |record: &Record| missing.iter().any(|other| other.ttl == record.ttl && other.same(record));
        changed.extend(put.iter().filter(|record| !back(record)));
        missing.retain(|record| !put.iter().any(|other| other.same(record)));
        let gone = missing.into_iter().map(|record| (&*record.key, widest(&record.key, new))).collect();
        Delta { gone, changed }
    }

    /// Writes the session's PUSH; how many bytes it has.
    pub fn notify(&self, session: &Session, out: &mut [u8]) -> usize {
        let (leaving, scopes): (Vec<&Key>, Vec<Scope>) =
            self.gone.iter().copied().filter(|(key, _)| session.sees(key)).unzip();
        let entering = self.changed.iter().copied().filter(|record| session.sees(&record.key));
        let mut writer = Writer::new(out);
        write_push(&mut writer, &removals(&leaving, |index| scopes[index]), entering);
        writer.at()
    }
}
