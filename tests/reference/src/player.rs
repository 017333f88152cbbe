//! A server that is asked in lines: those of the replay program, or those of the C service, which can be asked for more.

use crate::call::{Answer, Call, Outcome};
use crate::craft::dotted;
use crate::hex;
use crate::message::{Parts, Place};
use crate::replay::{self, read_call, read_line, UNREADABLE, ZONE};
use crate::server::{Server, OUTPUT};
use crate::tally::Tally;

#[derive(Clone, Copy, Debug, PartialEq, Eq)]
pub enum Language {
    /// The replay program's.
    Replay,
    /// The replay program's with lines of any length, `start` with a zone's name in hex, `lend` with how many bytes of output
    /// the calls after it are lent, and for a RECONFIRM the start and length of its four parts in place of the hex.
    Service,
}

pub struct Player {
    pub server: Server,
    pub tally: Tally,
    language: Language,
    output: Vec<u8>,
}

impl Player {
    pub fn new(language: Language) -> Player {
        let server = Server::start(&dotted(ZONE)).expect("the zone's name is a name");
        Player { server, tally: Tally::default(), language, output: vec![0; OUTPUT] }
    }

    /// What a line without its LF prints.
    pub fn step(&mut self, line: &[u8]) -> String {
        let said = match self.language {
            Language::Replay => read_line(line).map(|call| self.call(&call)),
            Language::Service => self.service(line),
        };
        said.unwrap_or_else(|| {
            self.tally.note("?", 19);
            UNREADABLE.to_string()
        })
    }

    fn call(&mut self, call: &Call) -> String {
        let outcome = self.server.call_into(call, &mut self.output);
        self.tally.note_outcome(call, &outcome);
        match (self.language, outcome.answer) {
            (Language::Service, Answer::Reconfirm(parts)) => with_parts(call, &outcome, parts),
            _ => replay::write_outcome(call, &outcome),
        }
    }

    fn service(&mut self, line: &[u8]) -> Option<String> {
        let fields: Vec<&[u8]> = line.split(|&byte| byte == b'\t').collect();
        match fields[..] {
            [b"start", zone] => Some(self.start(&hex::read(zone)?)),
            [b"lend", count] => {
                self.output.resize(replay::number(count)?.min(2 * OUTPUT as u64) as usize, 0);
                Some("lend\t1\t-\t-\n".to_string())
            }
            _ => read_call(line).map(|call| self.call(&call)),
        }
    }

    /// Another server in place of the one there is, unless the zone's name is refused.
    fn start(&mut self, zone: &[u8]) -> String {
        let answer = match Server::start(zone) {
            Ok(server) => {
                self.server = server;
                1
            }
            Err(refusal) => refusal as u32,
        };
        self.tally.note("start", answer);
        format!("start\t{answer}\t-\t-\n")
    }
}

/// The line of a RECONFIRM with the places of its parts.
fn with_parts(call: &Call, outcome: &Outcome, parts: Parts) -> String {
    let numbers =
        [parts.name, parts.rtype, parts.class, parts.rdata].map(|Place { start, length }| format!("{start},{length}"));
    replay::write_outcome(call, outcome).replace("\t-\n", &format!("\t{}\n", numbers.join(",")))
}
