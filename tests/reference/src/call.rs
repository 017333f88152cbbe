//! The server's calls and what each gives back.

use crate::message::Parts;

pub const SESSIONS: usize = 4;

/// A call on a started server, with its time in milliseconds.
#[derive(Clone, Debug, PartialEq, Eq)]
pub enum Call {
    Open { time: u64 },
    Close { time: u64, session: u64 },
    Message { time: u64, session: u64, bytes: Vec<u8> },
    Batch { time: u64, edits: Vec<u8> },
    Tick { time: u64 },
}

impl Call {
    pub fn time(&self) -> u64 {
        match self {
            Call::Open { time }
            | Call::Close { time, .. }
            | Call::Message { time, .. }
            | Call::Batch { time, .. }
            | Call::Tick { time } => *time,
        }
    }

    pub fn set_time(&mut self, new: u64) {
        match self {
            Call::Open { time }
            | Call::Close { time, .. }
            | Call::Message { time, .. }
            | Call::Batch { time, .. }
            | Call::Tick { time } => *time = new,
        }
    }

    pub fn verb(&self) -> &'static str {
        match self {
            Call::Open { .. } => "open",
            Call::Close { .. } => "close",
            Call::Message { .. } => "msg",
            Call::Batch { .. } => "batch",
            Call::Tick { .. } => "tick",
        }
    }

    /// The session number that the call names, if it names one.
    pub fn session(&self) -> Option<u64> {
        match self {
            Call::Close { session, .. } | Call::Message { session, .. } => Some(*session),
            _ => None,
        }
    }

    /// Whether the call may write messages and so needs room for all sessions' output.
    pub fn writes(&self) -> bool {
        matches!(self, Call::Message { .. } | Call::Batch { .. })
    }
}

/// Why a call was refused, with its answer number.
#[derive(Clone, Copy, Debug, PartialEq, Eq)]
pub enum Refusal {
    NoSession = 10,
    TimeWentBack = 11,
    ShortOutput = 12,
    AllOpen = 13,
    BatchUnparsed = 14,
    EditValue = 15,
    TooManyEdits = 16,
    TableFull = 17,
    LongMessage = 18,
    NoZoneName = 20,
}

#[derive(Clone, Copy, Debug, PartialEq, Eq)]
pub enum Answer {
    /// Done, nothing to send.
    Done,
    /// Done; the outcome's output is to be sent.
    Sent,
    /// The opcode is not 6: the host handles this message.
    NotOurs,
    /// The session was forcibly aborted.
    Aborted,
    Reconfirm(Parts),
    Refused(Refusal),
}

impl Answer {
    pub fn number(self) -> u32 {
        match self {
            Answer::Done => 1,
            Answer::Sent => 2,
            Answer::NotOurs => 3,
            Answer::Aborted => 4,
            Answer::Reconfirm(_) => 5,
            Answer::Refused(refusal) => refusal as u32,
        }
    }
}

/// What a call gives back.
#[derive(Clone, Debug, PartialEq, Eq)]
pub struct Outcome {
    pub answer: Answer,
    /// The session that an open took.
    pub opened: Option<usize>,
    /// The sessions that a tick aborted.
    pub ended: [bool; SESSIONS],
    /// Each session's bytes to send, messages with their length prefixes.
    pub output: [Vec<u8>; SESSIONS],
}

impl Outcome {
    pub fn of(answer: Answer) -> Outcome {
        Outcome { answer, opened: None, ended: [false; SESSIONS], output: Default::default() }
    }

    pub fn refused(refusal: Refusal) -> Outcome {
        Outcome::of(Answer::Refused(refusal))
    }

    pub fn is_refused(&self) -> bool {
        matches!(self.answer, Answer::Refused(_))
    }
}
