//! The observer: it follows every client from calls, answers and written bytes alone, and says where they do not agree.

use crate::book::{covers, edit, expected, Asked, Client, Entry};
use crate::call::{Call, Outcome, SESSIONS};
use crate::reading::{frames, notices, Frame, Notice, Reply, Rest};

#[derive(Clone, Debug, Default, PartialEq, Eq)]
pub struct Observer {
    pub store: Vec<Entry>,
    pub clients: [Option<Client>; SESSIONS],
}

/// The notices of each PUSH that a call wrote, by session.
pub type Pushes = Vec<(usize, Vec<Notice>)>;

impl Observer {
    /// Takes one call with what came of it: updates the book, lets the clients apply their PUSHes, and checks.
    pub fn observe(&mut self, call: &Call, outcome: &Outcome) -> Result<Pushes, String> {
        self.check_refusal(call, outcome.answer.number())?;
        check_presence(call, outcome)?;
        let before = self.clone();
        let written = read_output(outcome)?;
        self.note(call, outcome, &written)?;
        let mut pushes = Vec::new();
        for (number, frame) in &written {
            let Frame::Push(list) = frame else { continue };
            let client = self.clients[*number].as_mut().ok_or(format!("a PUSH to session {number}, which is gone"))?;
            list.iter().for_each(|notice| client.apply(notice));
            pushes.push((*number, list.clone()));
        }
        self.check_lists(&before, call, &pushes)?;
        self.check_views()?;
        Ok(pushes)
    }

    fn living(&mut self, session: u64) -> Result<&mut Client, String> {
        let found = self.clients.get_mut(session as usize).and_then(Option::as_mut);
        found.ok_or(format!("session {session} is not open"))
    }

    /// Refusals 10 and 13 are given in just their cases, as far as the book can tell.
    fn check_refusal(&self, call: &Call, answer: u32) -> Result<(), String> {
        let full = self.clients.iter().all(Option::is_some);
        if answer == 13 && !(full && matches!(call, Call::Open { .. })) {
            return Err("answer 13 while a session is free".to_string());
        }
        let Some(session) = call.session() else {
            return if answer == 10 { Err("answer 10 without a session".to_string()) } else { Ok(()) };
        };
        let lives = session < SESSIONS as u64 && self.clients[session as usize].is_some();
        match (answer, lives) {
            (10, true) => Err(format!("answer 10 while session {session} is open")),
            (11 | 12, _) | (_, true) | (10, false) => Ok(()),
            _ => Err(format!("answer {answer} while session {session} is not open")),
        }
    }

    /// The book's own rules, call by call.
    fn note(&mut self, call: &Call, outcome: &Outcome, written: &[(usize, Frame)]) -> Result<(), String> {
        match (call, outcome.answer.number()) {
            (Call::Open { .. }, 1) => self.note_open(outcome.opened),
            (Call::Close { session, .. }, 1) => self.end(*session),
            (Call::Message { session, .. }, 4) => self.end(*session),
            (Call::Tick { .. }, 1) => {
                (0..SESSIONS).filter(|number| outcome.ended[*number]).try_for_each(|number| self.end(number as u64))
            }
            (Call::Batch { edits, .. }, 1 | 2) => self.note_batch(edits),
            (Call::Message { session, bytes, .. }, 2) => self.note_reply(*session, bytes, written),
            (Call::Message { session, bytes, .. }, 1) => self.note_unsubscribe(*session, bytes),
            _ => Ok(()),
        }
    }

    fn note_batch(&mut self, edits: &[u8]) -> Result<(), String> {
        let list = notices(edits)?;
        list.iter().for_each(|each| edit(&mut self.store, each));
        match list.len() <= 32 && self.store.len() <= 40 {
            true => Ok(()),
            false => Err(format!("{} edits were taken, {} records are held", list.len(), self.store.len())),
        }
    }

    fn note_open(&mut self, opened: Option<usize>) -> Result<(), String> {
        let lowest = self.clients.iter().position(Option::is_none);
        if opened != lowest || lowest.is_none() {
            return Err(format!("open gave {opened:?}, the lowest free session is {lowest:?}"));
        }
        self.clients[opened.unwrap_or(0)] = Some(Client::default());
        Ok(())
    }

    fn end(&mut self, session: u64) -> Result<(), String> {
        self.living(session)?;
        self.clients[session as usize] = None;
        Ok(())
    }

    fn note_unsubscribe(&mut self, session: u64, message: &[u8]) -> Result<(), String> {
        let (tlv_type, data) = first_tlv(message)?;
        if (tlv_type, data.len()) != (0x0042, 2) {
            return Err(format!("answer 1 to a message of type {tlv_type:04x}"));
        }
        self.living(session)?.unsubscribe(Rest(data).short()?);
        Ok(())
    }

    /// A message answered with bytes: one reply, and after an accepted SUBSCRIBE at most one PUSH.
    fn note_reply(&mut self, session: u64, message: &[u8], written: &[(usize, Frame)]) -> Result<(), String> {
        let client = self.living(session)?;
        let [(_, Frame::Reply(reply)), pushes @ ..] = written else { return Err("no reply stands first".to_string()) };
        if written.iter().any(|(number, _)| *number as u64 != session) {
            return Err("a message wrote to another session".to_string());
        }
        check_reply(reply, message)?;
        if reply.rcode == 0 && client.subscriptions.iter().any(|asked| asked.id == reply.id) {
            return Err(format!("ID {} is held by a subscription and was taken again", reply.id));
        }
        if reply.rcode == 0 && first_tlv(message)?.0 == 0x0040 {
            return self.note_subscribe(session, reply.id, message, pushes);
        }
        match pushes.is_empty() {
            true => Ok(()),
            false => Err("a PUSH after a reply that starts nothing".to_string()),
        }
    }

    /// An accepted SUBSCRIBE: every matching record comes in one PUSH, or none if nothing matches.
    fn note_subscribe(
        &mut self,
        session: u64,
        id: u16,
        message: &[u8],
        pushes: &[(usize, Frame)],
    ) -> Result<(), String> {
        let mut data = Rest(first_tlv(message)?.1);
        let asked = Asked { id, name: data.name()?, rtype: data.short()?, class: data.short()? };
        let initial: Vec<Notice> =
            self.store.iter().filter(|entry| asked.matches(&entry.key)).map(Entry::add).collect();
        let client = self.living(session)?;
        check_room(client, &asked)?;
        client.subscriptions.push(asked);
        match pushes {
            [] if initial.is_empty() => Ok(()),
            [(_, Frame::Push(list))] if *list == initial => Ok(()),
            _ => Err(format!("after SUBSCRIBE {initial:?} was due, {pushes:?} came")),
        }
    }

    /// After a batch each client gets the fixed list in one PUSH, or none; its removals are true.
    fn check_lists(&self, before: &Observer, call: &Call, pushes: &Pushes) -> Result<(), String> {
        if !matches!(call, Call::Batch { .. }) {
            return Ok(());
        }
        for (number, client) in before.clients.iter().enumerate() {
            let Some(client) = client else { continue };
            let due = expected(client, &before.store, &self.store);
            let sent: Vec<&Vec<Notice>> =
                pushes.iter().filter(|(session, _)| *session == number).map(|(_, list)| list).collect();
            let agrees = if due.is_empty() { sent.is_empty() } else { sent == [&due] };
            if !agrees {
                return Err(format!("session {number}: {due:?} was due, {sent:?} came"));
            }
            let untrue =
                |notice: &&Notice| !notice.is_add() && self.store.iter().any(|entry| covers(notice, &entry.key));
            if let Some(notice) = due.iter().find(untrue) {
                return Err(format!("session {number}: a removal that covers a record that stays: {notice:?}"));
            }
        }
        Ok(())
    }

    /// Every client has just its view.
    fn check_views(&self) -> Result<(), String> {
        for (number, client) in self.clients.iter().enumerate() {
            let Some(client) = client else { continue };
            let view = client.view(&self.store);
            if client.records != view {
                return Err(format!("session {number}: the client has {:?}, its view is {view:?}", client.records));
            }
        }
        Ok(())
    }
}

/// Bytes come with answer 2 and only then; sessions end by tick only with answer 1.
fn check_presence(call: &Call, outcome: &Outcome) -> Result<(), String> {
    let answer = outcome.answer.number();
    let some = outcome.output.iter().any(|bytes| !bytes.is_empty());
    if some != (answer == 2) {
        return Err(format!("answer {answer} and bytes: {some}"));
    }
    let ended = outcome.ended.contains(&true);
    if ended && !(answer == 1 && matches!(call, Call::Tick { .. })) {
        return Err(format!("answer {answer} with sessions that ended"));
    }
    Ok(())
}

fn read_output(outcome: &Outcome) -> Result<Vec<(usize, Frame)>, String> {
    let mut written = Vec::new();
    for (number, bytes) in outcome.output.iter().enumerate() {
        written.extend(frames(bytes)?.into_iter().map(|frame| (number, frame)));
    }
    Ok(written)
}

/// Type and data of a message's first TLV.
fn first_tlv(message: &[u8]) -> Result<(u16, &[u8]), String> {
    let mut rest = Rest(message);
    rest.take(12)?;
    let tlv_type = rest.short()?;
    let length = rest.short()?;
    Ok((tlv_type, rest.take(usize::from(length))?))
}

/// An accepted SUBSCRIBE finds fewer than sixteen subscriptions, none of them for the same.
fn check_room(client: &Client, asked: &Asked) -> Result<(), String> {
    let same = |other: &Asked| {
        other.name.eq_ignore_ascii_case(&asked.name) && (other.rtype, other.class) == (asked.rtype, asked.class)
    };
    match client.subscriptions.len() < 16 && !client.subscriptions.iter().any(same) {
        true => Ok(()),
        false => Err(format!("{asked:?} was taken beside {:?}", client.subscriptions)),
    }
}

/// A reply carries the request's ID and, by its RCODE and the request, just the TLV that is due.
fn check_reply(reply: &Reply, message: &[u8]) -> Result<(), String> {
    let due = match reply.rcode {
        0 if first_tlv(message)?.0 == 1 => vec![(1, vec![0, 0, 0x3a, 0x98, 0, 0, 0xea, 0x60])],
        0 => vec![],
        11 => vec![(2, 3_600_000u32.to_be_bytes().to_vec())],
        1 | 2 | 9 => vec![(2, 300_000u32.to_be_bytes().to_vec())],
        other => return Err(format!("RCODE {other}")),
    };
    if reply.id != Rest(message).short()? || reply.tlvs != due {
        return Err(format!("reply {reply:?}, due were {due:?}"));
    }
    Ok(())
}
