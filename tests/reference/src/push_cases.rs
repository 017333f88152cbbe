//! Cases for one session and one zone: subscriptions, batches of edits and the PUSHes that are due, as lines of input and
//! of expected output.

use crate::call::{Call, Outcome};
use crate::craft::{self, dotted};
use crate::message::{Subscription, MAX_SUBSCRIPTIONS};
use crate::random::Random;
use crate::server::Server;
use crate::zone::Record;
use crate::{hex, push_faults, push_random, push_runs, push_sizes, push_walks};

/// The most bytes of each file, and of a line with its end.
pub const MOST_BYTES: usize = 400_000;
pub const LONGEST_LINE: usize = 30_000;
/// No further run begins with so many lines.
const ENOUGH_LINES: usize = 2_000;
/// The most lines of a run, and the fewest.
pub const LONGEST_RUN: usize = 60;
pub const SHORTEST_RUN: usize = 10;
/// A reply to SUBSCRIBE with its length prefix.
const REPLY: usize = 14;

/// The lines so far, and the server in the state that the latest run's lines give it.
pub struct Bench {
    pub input: String,
    pub output: String,
    pub lines: usize,
    pub server: Server,
    /// The lines of the latest run.
    pub run: usize,
}

fn opened() -> Server {
    let mut server = Server::start(&dotted("shop.example")).expect("the zone's name is one");
    server.call(&Call::Open { time: 0 });
    server
}

impl Bench {
    pub fn new() -> Bench {
        Bench { input: String::new(), output: String::new(), lines: 0, server: opened(), run: 0 }
    }

    fn line(&mut self, input: &str, output: &str) {
        for (text, line) in [(&mut self.input, input), (&mut self.output, output)] {
            text.push_str(line);
            text.push('\n');
        }
        self.lines += 1;
        self.run += 1;
    }

    fn send(&mut self, bytes: Vec<u8>) -> Outcome {
        self.server.call(&Call::Message { time: 0, session: 0, bytes })
    }

    /// Begins a run: no record, no subscription.
    pub fn fresh(&mut self) {
        self.server = opened();
        self.run = 0;
        self.line("fresh", "fresh\t-");
    }

    /// A subscription that must be accepted.
    pub fn subscribe(&mut self, id: u16, name: &[u8], rtype: u16, class: u16) {
        let written = self.send(craft::subscribe(id, name, rtype, class)).output[0].clone();
        assert_eq!(written[2..REPLY], craft::message(id, 0xb000, &[]), "the subscription is accepted");
        let push = if written.len() == REPLY { "-".to_string() } else { hex::write(&written[REPLY..]) };
        self.line(&format!("subscribe\t{id}\t{rtype}\t{class}\t{}", hex::write(name)), &format!("subscribe\t{push}"));
    }

    /// The end of a subscription, or nothing where none has the ID.
    pub fn unsubscribe(&mut self, id: u16) {
        assert_eq!(self.send(craft::unsubscribe(id)).answer.number(), 1);
        self.line(&format!("unsubscribe\t{id}"), "unsubscribe\t-");
    }

    /// Ends a live subscription and asks the same again, so that its whole view is written.
    pub fn ask_again(&mut self, id: u16) {
        let held = self.live().iter().find(|subscription| subscription.id == id).expect("a live one").clone();
        self.unsubscribe(id);
        self.subscribe(id, &held.question.name, held.question.rtype, held.question.class);
    }

    /// A batch given as bytes; the answer's number.
    pub fn batch(&mut self, bytes: &[u8]) -> u32 {
        let outcome = self.server.call(&Call::Batch { time: 0, edits: bytes.to_vec() });
        let answer = outcome.answer.number();
        let push = if answer == 2 { hex::write(&outcome.output[0]) } else { "-".to_string() };
        self.line(&format!("batch\t{}", hex::write(bytes)), &format!("batch\t{answer}\t{push}"));
        answer
    }

    /// A batch given as edits.
    pub fn edits(&mut self, edits: &[Vec<u8>]) -> u32 {
        self.batch(&edits.concat())
    }

    pub fn live(&self) -> &[Subscription] {
        self.server.sessions[0].as_ref().map_or(&[], |session| &session.subscriptions)
    }

    pub fn records(&self) -> &[Record] {
        &self.server.records
    }

    /// Whether a question can be asked beside the live ones.
    pub fn may_ask(&self, id: u16, name: &[u8], rtype: u16, class: u16) -> bool {
        let other = |subscription: &Subscription| {
            let question = &subscription.question;
            subscription.id != id
                && ((question.rtype, question.class) != (rtype, class) || !question.name.eq_ignore_ascii_case(name))
        };
        id != 0 && self.live().len() < MAX_SUBSCRIPTIONS && self.live().iter().all(other)
    }

    /// Whether both files keep their limits.
    fn fits(&self) -> bool {
        [&self.input, &self.output]
            .iter()
            .all(|text| text.len() <= MOST_BYTES && text.lines().all(|line| line.len() + 1 < LONGEST_LINE))
    }

    /// Takes back a run that began with so many bytes and lines.
    fn take_back(&mut self, input: usize, output: usize, lines: usize) {
        self.input.truncate(input);
        self.output.truncate(output);
        self.lines = lines;
    }
}

impl Default for Bench {
    fn default() -> Bench {
        Bench::new()
    }
}

/// The runs with a purpose, then random ones.
pub fn cases(seed: u64) -> Bench {
    let mut bench = Bench::new();
    let random = &mut Random::new(seed);
    push_walks::all(&mut bench, random);
    push_runs::all(&mut bench, random);
    push_sizes::all(&mut bench);
    push_faults::all(&mut bench);
    while bench.lines < ENOUGH_LINES {
        let (input, output, lines) = (bench.input.len(), bench.output.len(), bench.lines);
        push_random::run(&mut bench, random);
        if !bench.fits() {
            bench.take_back(input, output, lines);
            break;
        }
    }
    bench
}
