//! When each session's clocks run out, kept as deadlines from calls, answers and bytes alone.

use crate::call::{Call, Outcome, SESSIONS};
use crate::observer::Observer;
use crate::reading::tlvs_of;

/// Twice the first values of both clocks, and twice the interval that a Keepalive reply grants, in milliseconds.
const FIRST: u128 = 30_000;
const GRANTED: u128 = 120_000;

#[derive(Clone, Copy, Debug)]
struct Deadlines {
    idle: u128,
    silent: u128,
    patience: u128,
}

#[derive(Clone, Debug, Default)]
pub struct Timing {
    sessions: [Option<Deadlines>; SESSIONS],
}

impl Timing {
    /// Takes one call with what came of it; `observer` is as it was before the call.
    pub fn observe(&mut self, call: &Call, outcome: &Outcome, observer: &Observer) -> Result<(), String> {
        let time = u128::from(call.time());
        match (call, outcome.answer.number()) {
            (Call::Open { .. }, 1) => {
                let fresh = Deadlines { idle: time + FIRST, silent: time + FIRST, patience: FIRST };
                self.sessions[outcome.opened.unwrap_or(0)] = Some(fresh);
            }
            (Call::Close { session, .. }, 1) | (Call::Message { session, .. }, 4) => {
                self.sessions[*session as usize] = None
            }
            (Call::Message { session, bytes, .. }, 1..=5) => self.received(*session as usize, time, bytes, outcome)?,
            (Call::Tick { .. }, 1) => self.ticked(time, outcome.ended, observer)?,
            _ => {}
        }
        Ok(())
    }

    fn received(&mut self, session: usize, time: u128, message: &[u8], outcome: &Outcome) -> Result<(), String> {
        let deadlines = self.sessions[session].as_mut().ok_or("a message to a session without clocks")?;
        let about_keepalive =
            tlvs_of(message).is_ok_and(|tlvs| tlvs.first().is_some_and(|(tlv_type, _)| *tlv_type == 1));
        if about_keepalive && outcome.output[session].get(5).is_some_and(|flags| flags & 15 == 0) {
            deadlines.patience = GRANTED;
        }
        deadlines.silent = time + deadlines.patience;
        if !about_keepalive {
            deadlines.idle = time + FIRST;
        }
        Ok(())
    }

    fn ticked(&mut self, time: u128, ended: [bool; SESSIONS], observer: &Observer) -> Result<(), String> {
        for (number, place) in self.sessions.iter_mut().enumerate() {
            let bare = observer.clients[number].as_ref().is_some_and(|client| client.subscriptions.is_empty());
            let due = place.is_some_and(|deadlines| time >= deadlines.silent || (bare && time >= deadlines.idle));
            if due != ended[number] {
                return Err(format!(
                    "session {number} at {time}: due to end: {due}, ended: {}, {place:?}",
                    ended[number]
                ));
            }
            if due {
                *place = None;
            }
        }
        Ok(())
    }
}
