//! The plain way to notify: each session's view before the batch is compared with its view after it.

use crate::push::{removals, widest, write_push};
use crate::server::Session;
use crate::wire::Writer;
use crate::zone::{Key, Record};

fn view<'a>(session: &Session, records: &'a [Record]) -> Vec<&'a Record> {
    records.iter().filter(|record| session.sees(&record.key)).collect()
}

/// Writes the session's PUSH; how many bytes it has.
pub fn notify(session: &Session, old: &[Record], new: &[Record], out: &mut [u8]) -> usize {
    let before = view(session, old);
    let after = view(session, new);
    let left = |record: &&&Record| !after.iter().any(|other| other.same(record));
    let leaving: Vec<&Key> = before.iter().filter(left).map(|record| &*record.key).collect();
    let known = |record: &Record| before.iter().any(|other| other.ttl == record.ttl && other.same(record));
    let entering = after.iter().copied().filter(|record| !known(record));
    let mut writer = Writer::new(out);
    write_push(&mut writer, &removals(&leaving, |index| widest(leaving[index], new)), entering);
    writer.at()
}
