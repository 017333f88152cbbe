//! Change notifications (RFC 8765, 6.3.1): which removals are sent, and the bytes of a PUSH.

use crate::message::{ANY, PUSH};
use crate::wire::Writer;
use crate::zone::{Key, Record};

const REMOVE_ONE: u32 = 0xffff_ffff;
const REMOVE_ALL: u32 = 0xffff_fffe;
/// Flags of a message without a response: opcode 6.
const UNIDIRECTIONAL: u16 = 0x3000;

/// How much of its name a removal takes.
#[derive(Clone, Copy, Debug, PartialEq, Eq)]
pub enum Scope {
    Single,
    Rrset,
    AllTypes,
    AllClasses,
}

fn covers(scope: Scope, at: &Key, other: &Key) -> bool {
    let inside = match scope {
        Scope::AllClasses => true,
        Scope::AllTypes => at.class == other.class,
        Scope::Rrset => at.class == other.class && at.rtype == other.rtype,
        Scope::Single => at.class == other.class && at.rtype == other.rtype && at.rdata == other.rdata,
    };
    inside && at.name.same(&other.name)
}

/// The widest removal at a record that covers none of the new store.
pub fn widest(gone: &Key, new: &[Record]) -> Scope {
    let (mut name, mut class) = (false, false);
    for record in new {
        let key = &record.key;
        if key.name.same(&gone.name) {
            if key.class == gone.class && key.rtype == gone.rtype {
                return Scope::Single;
            }
            name = true;
            class |= key.class == gone.class;
        }
    }
    match (name, class) {
        (_, true) => Scope::Rrset,
        (true, false) => Scope::AllTypes,
        (false, false) => Scope::AllClasses,
    }
}

/// The narrowest collective removal that covers the same leaving records as the widest true one.
fn narrowed(at: &Key, wide: Scope, leaving: &[&Key]) -> Scope {
    if wide == Scope::Single {
        return Scope::Single;
    }
    let mut scope = Scope::Rrset;
    for other in leaving {
        if covers(wide, at, other) {
            if other.class != at.class {
                return Scope::AllClasses;
            }
            if other.rtype != at.rtype {
                scope = Scope::AllTypes;
            }
        }
    }
    scope
}

/// The removals for records that leave a view, in the old store's order; `widest` gives that of the record at an index.
pub fn removals<'a>(leaving: &[&'a Key], widest: impl Fn(usize) -> Scope) -> Vec<(&'a Key, Scope)> {
    let mut sent: Vec<(&Key, Scope)> = Vec::new();
    for (index, key) in leaving.iter().enumerate() {
        if !sent.iter().any(|&(at, scope)| covers(scope, at, key)) {
            sent.push((key, narrowed(key, widest(index), leaving)));
        }
    }
    sent
}

fn write_change(writer: &mut Writer, key: &Key, (rtype, class, ttl): (u16, u16, u32), rdata: &[u8]) {
    writer.put(&key.name.octets);
    writer.put16(rtype);
    writer.put16(class);
    writer.put32(ttl);
    writer.put16(rdata.len() as u16);
    writer.put(rdata);
}

fn write_removal(writer: &mut Writer, key: &Key, scope: Scope) {
    match scope {
        Scope::Single => write_change(writer, key, (key.rtype, key.class, REMOVE_ONE), &key.rdata),
        Scope::Rrset => write_change(writer, key, (key.rtype, key.class, REMOVE_ALL), &[]),
        Scope::AllTypes => write_change(writer, key, (ANY, key.class, REMOVE_ALL), &[]),
        Scope::AllClasses => write_change(writer, key, (0, ANY, REMOVE_ALL), &[]),
    }
}

/// The PUSH of removals and additions, with its length prefix; nothing where there are none.
pub fn write_push<'a>(
    writer: &mut Writer,
    removals: &[(&Key, Scope)],
    additions: impl IntoIterator<Item = &'a Record>,
) {
    let mut additions = additions.into_iter().peekable();
    if removals.is_empty() && additions.peek().is_none() {
        return;
    }
    let start = writer.begin(0, UNIDIRECTIONAL);
    writer.put16(PUSH);
    writer.put16(0);
    let data = writer.at();
    for &(key, scope) in removals {
        write_removal(writer, key, scope);
    }
    for Record { key, ttl } in additions {
        write_change(writer, key, (key.rtype, key.class, *ttl), &key.rdata);
    }
    writer.put16_at(data - 2, (writer.at() - data) as u16);
    writer.finish(start);
}
