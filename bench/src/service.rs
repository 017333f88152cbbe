//! One interface to the servers that are measured.

use crate::message;
use crate::server::{Answer, Server, SESSIONS};
use reference::call::{self, Call};

/// An answer's number and values, as the C header has them.
#[derive(Clone, Copy, Debug, Default, PartialEq, Eq)]
pub struct Told {
    pub number: u32,
    pub values: [u64; 8],
}

pub trait Service: Sized {
    const NAME: &'static str;
    /// What a call gives in this server's own form.
    type Answer;

    /// A server of a zone, or the number of the refusal.
    fn start(zone: &[u8]) -> Result<Self, u32>;
    fn call(&mut self, call: &Call, out: &mut [u8]) -> Self::Answer;
    fn told(answer: &Self::Answer) -> Told;
    /// The kind of a message by its bytes alone.
    fn kind(message: &[u8]) -> u32;
}

impl<const INCREMENTAL: bool> Service for Server<INCREMENTAL> {
    const NAME: &'static str = if INCREMENTAL { "incremental" } else { "plain" };
    type Answer = Answer;

    fn start(zone: &[u8]) -> Result<Self, u32> {
        Server::start(zone).map_err(|refusal| refusal as u32)
    }

    #[inline(never)]
    fn call(&mut self, call: &Call, out: &mut [u8]) -> Answer {
        match call {
            Call::Open { time } => self.open(*time),
            Call::Close { time, session } => self.close(*time, *session),
            Call::Message { time, session, bytes } => self.message(*time, *session, bytes, out),
            Call::Batch { time, edits } => self.batch(*time, edits, out),
            Call::Tick { time } => self.tick(*time),
        }
    }

    fn told(answer: &Answer) -> Told {
        let mut values = [0; 8];
        let number = match answer {
            Answer::Done => 1,
            Answer::Opened(session) => {
                values[0] = *session as u64;
                1
            }
            Answer::Ended(ended) => {
                (0..SESSIONS).for_each(|session| values[session] = u64::from(ended[session]));
                1
            }
            Answer::Sent(counts) => {
                (0..SESSIONS).for_each(|session| values[session] = counts[session] as u64);
                2
            }
            Answer::NotOurs => 3,
            Answer::Aborted => 4,
            Answer::Reconfirm(places) => {
                values = places_of(*places);
                5
            }
            Answer::Refused(refusal) => *refusal as u32,
        };
        Told { number, values }
    }

    #[inline(never)]
    fn kind(message: &[u8]) -> u32 {
        message::kind(message)
    }
}

fn places_of(places: [(usize, usize); 4]) -> [u64; 8] {
    let mut values = [0; 8];
    for (index, (start, length)) in places.into_iter().enumerate() {
        values[2 * index] = start as u64;
        values[2 * index + 1] = length as u64;
    }
    values
}

impl Service for reference::server::Server {
    const NAME: &'static str = "reference";
    type Answer = call::Outcome;

    fn start(zone: &[u8]) -> Result<Self, u32> {
        reference::server::Server::start(zone).map_err(|refusal| refusal as u32)
    }

    #[inline(never)]
    fn call(&mut self, call: &Call, out: &mut [u8]) -> call::Outcome {
        self.call_into(call, out)
    }

    fn told(outcome: &call::Outcome) -> Told {
        let mut values = [0; 8];
        if let Some(session) = outcome.opened {
            values[0] = session as u64;
        }
        for session in 0..SESSIONS {
            values[session] += u64::from(outcome.ended[session]) + outcome.output[session].len() as u64;
        }
        if let call::Answer::Reconfirm(parts) = outcome.answer {
            values =
                places_of([parts.name, parts.rtype, parts.class, parts.rdata].map(|part| (part.start, part.length)));
        }
        Told { number: outcome.answer.number(), values }
    }

    #[inline(never)]
    fn kind(message: &[u8]) -> u32 {
        reference::message::kind(message)
    }
}
