//! A replay script that is being written, beside the server that it is meant for.

use crate::call::{Call, Outcome};
use crate::craft::{self, dotted, edit};
use crate::replay::{read_line, write_line, ZONE};
use crate::server::Server;
use crate::zone::TTL_ONE;

pub struct Run {
    pub server: Server,
    pub text: Vec<u8>,
    pub lines: usize,
}

impl Run {
    pub fn new() -> Run {
        let server = Server::start(&dotted(ZONE)).expect("the zone's name is a name");
        Run { server, text: Vec::new(), lines: 0 }
    }

    /// One more line, without its LF.
    pub fn line(&mut self, line: &[u8]) -> Option<Outcome> {
        self.text.extend_from_slice(line);
        self.text.push(b'\n');
        self.lines += 1;
        read_line(line).map(|call| self.server.call(&call))
    }

    pub fn call(&mut self, call: Call) -> Outcome {
        self.line(write_line(&call).as_bytes()).expect("a line that was written is read")
    }

    pub fn open(&mut self, time: u64) -> u64 {
        self.call(Call::Open { time }).opened.map_or(u64::MAX, |session| session as u64)
    }

    pub fn close(&mut self, session: u64) {
        self.call(Call::Close { time: self.server.latest, session });
    }

    pub fn tick(&mut self, time: u64) {
        self.call(Call::Tick { time });
    }

    /// A message at the latest time.
    pub fn message(&mut self, session: u64, bytes: Vec<u8>) {
        self.call(Call::Message { time: self.server.latest, session, bytes });
    }

    /// A batch at the latest time.
    pub fn batch(&mut self, edits: &[Vec<u8>]) {
        self.call(Call::Batch { time: self.server.latest, edits: edits.concat() });
    }

    pub fn subscribe(&mut self, session: u64, id: u16, name: &str, rtype: u16, class: u16) {
        self.message(session, craft::subscribe(id, &dotted(name), rtype, class));
    }

    /// Closes every session and deletes every record.
    pub fn clear(&mut self) {
        for session in 0..self.server.sessions.len() {
            if self.server.sessions[session].is_some() {
                self.close(session as u64);
            }
        }
        while !self.server.records.is_empty() {
            let some = self.server.records.iter().take(32);
            let edits: Vec<Vec<u8>> =
                some.map(|record| edit(&record.name, record.rtype, record.class, TTL_ONE, &record.rdata)).collect();
            self.batch(&edits);
        }
    }
}

impl Default for Run {
    fn default() -> Run {
        Run::new()
    }
}
