//! What the observer writes down: a store, and for each living session its subscriptions and its client's records.

use crate::reading::Notice;
use std::collections::{BTreeMap, BTreeSet};

/// What makes a record the same one: its name in small letters, class, type and RDATA.
#[derive(Clone, Debug, PartialEq, Eq, PartialOrd, Ord)]
pub struct Key {
    pub name: Vec<u8>,
    pub class: u16,
    pub rtype: u16,
    pub rdata: Vec<u8>,
}

impl Key {
    pub fn of(notice: &Notice) -> Key {
        Key {
            name: notice.name.to_ascii_lowercase(),
            class: notice.class,
            rtype: notice.rtype,
            rdata: notice.rdata.clone(),
        }
    }
}

/// A record of the store: what it is, and how it was put.
#[derive(Clone, Debug, PartialEq, Eq)]
pub struct Entry {
    pub key: Key,
    pub spelling: Vec<u8>,
    pub ttl: u32,
}

impl Entry {
    fn notice(&self, rtype: u16, class: u16, ttl: u32, rdata: &[u8]) -> Notice {
        Notice { name: self.spelling.clone(), rtype, class, ttl, rdata: rdata.to_vec() }
    }

    pub fn add(&self) -> Notice {
        self.notice(self.key.rtype, self.key.class, self.ttl, &self.key.rdata)
    }
}

/// A live subscription.
#[derive(Clone, Debug, PartialEq, Eq)]
pub struct Asked {
    pub id: u16,
    pub name: Vec<u8>,
    pub rtype: u16,
    pub class: u16,
}

impl Asked {
    pub fn matches(&self, key: &Key) -> bool {
        let class = self.class == 255 || self.class == key.class;
        let rtype = self.rtype == 255 || key.rtype == 5 || self.rtype == key.rtype;
        class && rtype && self.name.to_ascii_lowercase() == key.name
    }
}

/// A living session as its client sees it.
#[derive(Clone, Debug, Default, PartialEq, Eq)]
pub struct Client {
    pub subscriptions: Vec<Asked>,
    pub records: BTreeMap<Key, u32>,
}

impl Client {
    pub fn sees(&self, key: &Key) -> bool {
        self.subscriptions.iter().any(|asked| asked.matches(key))
    }

    /// The records of a store that a subscription matches.
    pub fn view(&self, store: &[Entry]) -> BTreeMap<Key, u32> {
        store.iter().filter(|entry| self.sees(&entry.key)).map(|entry| (entry.key.clone(), entry.ttl)).collect()
    }

    pub fn unsubscribe(&mut self, id: u16) {
        self.subscriptions.retain(|asked| asked.id != id);
        let records = std::mem::take(&mut self.records);
        self.records = records.into_iter().filter(|(key, _)| self.sees(key)).collect();
    }

    pub fn apply(&mut self, notice: &Notice) {
        if notice.is_add() {
            self.records.insert(Key::of(notice), notice.ttl);
        } else {
            self.records.retain(|key, _| !covers(notice, key));
        }
    }
}

/// Whether a removal covers a record.
pub fn covers(removal: &Notice, key: &Key) -> bool {
    if removal.name.to_ascii_lowercase() != key.name {
        return false;
    }
    if removal.ttl == 0xffff_ffff {
        return Key::of(removal) == *key;
    }
    removal.class == 255 || (removal.class == key.class && (removal.rtype == 255 || removal.rtype == key.rtype))
}

/// Puts or deletes as an edit says.
pub fn edit(store: &mut Vec<Entry>, edit: &Notice) {
    let key = Key::of(edit);
    if edit.ttl == 0xffff_ffff {
        store.retain(|entry| entry.key != key);
    } else if let Some(entry) = store.iter_mut().find(|entry| entry.key == key) {
        entry.ttl = edit.ttl;
    } else {
        store.push(Entry { key, spelling: edit.name.clone(), ttl: edit.ttl });
    }
}

/// What of its name is gone from the new store with a leaving record; records with equal marks leave together.
type Mark<'a> = (&'a [u8], Option<u16>, Option<u16>, Option<&'a [u8]>);

fn mark<'a>(key: &'a Key, new: &[Entry]) -> Mark<'a> {
    let named: Vec<&Key> = new.iter().map(|entry| &entry.key).filter(|other| other.name == key.name).collect();
    let same_class = named.iter().any(|other| other.class == key.class);
    let same_set = named.iter().any(|other| other.class == key.class && other.rtype == key.rtype);
    let class = (!named.is_empty()).then_some(key.class);
    let rtype = same_class.then_some(key.rtype);
    (&key.name, class, rtype, same_set.then_some(&key.rdata[..]))
}

/// The list that a batch must send to a client, by counting what leaves together.
pub fn expected(client: &Client, old: &[Entry], new: &[Entry]) -> Vec<Notice> {
    let (before, after) = (client.view(old), client.view(new));
    let leaving = old.iter().filter(|entry| before.contains_key(&entry.key) && !after.contains_key(&entry.key));
    let mut groups: Vec<(Mark, Vec<&Entry>)> = Vec::new();
    for entry in leaving {
        let mark = mark(&entry.key, new);
        match groups.iter_mut().find(|(other, _)| *other == mark) {
            Some((_, members)) => members.push(entry),
            None => groups.push((mark, vec![entry])),
        }
    }
    let mut list: Vec<Notice> = groups.iter().map(|(mark, members)| removal(mark.3.is_some(), members)).collect();
    list.extend(
        new.iter()
            .filter(|entry| client.sees(&entry.key) && before.get(&entry.key) != Some(&entry.ttl))
            .map(Entry::add),
    );
    list
}

/// The removal of records that leave together, spelled as the first of them.
fn removal(single: bool, members: &[&Entry]) -> Notice {
    let first = members[0];
    let classes: BTreeSet<u16> = members.iter().map(|entry| entry.key.class).collect();
    let sets: BTreeSet<(u16, u16)> = members.iter().map(|entry| (entry.key.class, entry.key.rtype)).collect();
    match (single, sets.len(), classes.len()) {
        (true, ..) => first.notice(first.key.rtype, first.key.class, 0xffff_ffff, &first.key.rdata),
        (_, 1, _) => first.notice(first.key.rtype, first.key.class, 0xffff_fffe, &[]),
        (_, _, 1) => first.notice(255, first.key.class, 0xffff_fffe, &[]),
        _ => first.notice(0, 255, 0xffff_fffe, &[]),
    }
}
