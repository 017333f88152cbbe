//! What is measured: a server in some state, and calls that bring it back to that state, so that they can be repeated.

use reference::call::Call;
use reference::craft::{self, dotted, edit, stretched};
use reference::server::OUTPUT;

/// All calls come at one time: no clock runs out.
const TIME: u64 = 1_000;
const IN: u16 = 1;
const A: u16 = 1;
const TXT: u16 = 16;
const SRV: u16 = 33;
const ANY: u16 = 255;
const DELETE: u32 = 0xffff_ffff;
const LONG_NAME: usize = 255;
const LONG_RDATA: usize = 128;

pub enum Work {
    /// Calls on the server.
    Calls(Vec<Call>),
    /// Messages judged by their bytes alone.
    Kinds(Vec<Vec<u8>>),
}

impl Work {
    pub fn len(&self) -> usize {
        match self {
            Work::Calls(calls) => calls.len(),
            Work::Kinds(messages) => messages.len(),
        }
    }

    pub fn is_empty(&self) -> bool {
        self.len() == 0
    }
}

pub struct Case {
    pub state: String,
    pub call: String,
    /// Brings a fresh server to the state.
    pub setup: Vec<Call>,
    /// Repeated; its last call leaves the state as its first found it.
    pub work: Work,
}

pub fn zone() -> Vec<u8> {
    dotted("shop.example")
}

pub fn output() -> Vec<u8> {
    vec![0; OUTPUT]
}

/// A record as an edit puts or deletes it.
#[derive(Clone)]
struct Record {
    name: Vec<u8>,
    rtype: u16,
    rdata: Vec<u8>,
}

impl Record {
    fn put(&self, ttl: u32) -> Vec<u8> {
        edit(&self.name, self.rtype, IN, ttl, &self.rdata)
    }
}

fn batch(edits: impl IntoIterator<Item = Vec<u8>>) -> Call {
    Call::Batch { time: TIME, edits: edits.into_iter().flatten().collect() }
}

fn puts(records: &[Record], ttl: u32) -> Vec<Vec<u8>> {
    records.iter().map(|record| record.put(ttl)).collect()
}

fn message(session: u64, bytes: Vec<u8>) -> Call {
    Call::Message { time: TIME, session, bytes }
}

/// A state: its records, and for each session the names, types and classes of its subscriptions, with IDs from 1 on.
#[derive(Clone)]
struct State {
    label: String,
    records: Vec<Record>,
    sessions: Vec<Vec<(Vec<u8>, u16)>>,
    /// Of records that the state does not have, for batches on states with few.
    spare: Vec<Record>,
}

impl State {
    fn setup(&self) -> Vec<Call> {
        let mut calls: Vec<Call> = self.records.chunks(32).map(|records| batch(puts(records, 120))).collect();
        for (session, questions) in self.sessions.iter().enumerate() {
            calls.push(Call::Open { time: TIME });
            for (index, (name, rtype)) in questions.iter().enumerate() {
                calls.push(message(session as u64, craft::subscribe(index as u16 + 1, name, *rtype, IN)));
            }
        }
        calls
    }

    fn case(&self, call: &str, calls: Vec<Call>) -> Case {
        Case { state: self.label.clone(), call: call.to_string(), setup: self.setup(), work: Work::Calls(calls) }
    }
}

fn empty() -> State {
    State { label: "empty".to_string(), records: Vec::new(), sessions: vec![Vec::new()], spare: short_records(32) }
}

/// Records with short names, such as a small device has: addresses, services, text.
fn short_records(count: usize) -> Vec<Record> {
    let names = ["till", "door", "printer", "_ipp._tcp", "office._ipp._tcp", "camera"];
    let of = |index: usize| {
        let rtype = [A, SRV, TXT][index % 3];
        let rdata = [vec![192, 0, 2, index as u8], vec![index as u8; 20], vec![index as u8; 40]][index % 3].clone();
        Record { name: dotted(&format!("{}.shop.example", names[index % names.len()])), rtype, rdata }
    };
    (0..count).map(of).collect()
}

fn typical() -> State {
    let mut records = short_records(32);
    let spare = records.split_off(10);
    let ask = |index: usize, rtype: u16| (records[index].name.clone(), rtype);
    let sessions = vec![vec![ask(0, ANY), ask(2, TXT), ask(4, SRV)]];
    State { label: "typical".to_string(), sessions, records, spare }
}

/// Where long names and RDATA differ.
#[derive(Clone, Copy, PartialEq, Eq)]
enum Unlike {
    /// In their first octets.
    Early,
    /// In their last octets, so that comparing reads them whole.
    Late,
}

fn long_name(number: usize, unlike: Unlike) -> Vec<u8> {
    let mut name = stretched(&zone(), LONG_NAME, b'n');
    let at = if unlike == Unlike::Early { 1 } else { LONG_NAME - zone().len() - 3 };
    name[at..at + 3].copy_from_slice(format!("{number:03}").as_bytes());
    name
}

fn long_record(number: usize, name: usize, unlike: Unlike) -> Record {
    let mut rdata = vec![b'r'; LONG_RDATA];
    rdata[if unlike == Unlike::Early { 0 } else { LONG_RDATA - 1 }] = number as u8;
    Record { name: long_name(name, unlike), rtype: [TXT, SRV, A][number / 16 % 3], rdata }
}

/// Sessions with so many subscriptions each and so many records of 16 names, all of which match in every session.
fn all_match(label: &str, sessions: usize, subscriptions: usize, records: usize, unlike: Unlike) -> State {
    let questions: Vec<(Vec<u8>, u16)> = (0..subscriptions).map(|number| (long_name(number, unlike), ANY)).collect();
    State {
        label: label.to_string(),
        records: (0..records).map(|number| long_record(number, number % 16, unlike)).collect(),
        sessions: vec![questions; sessions],
        spare: Vec::new(),
    }
}

/// As the full server, but each session has one subscription that matches, to a name of its own.
fn few_match() -> State {
    let mut state = all_match("full, few match", 4, 16, 40, Unlike::Early);
    for (session, questions) in state.sessions.iter_mut().enumerate() {
        for (index, question) in questions.iter_mut().enumerate() {
            let name = if index == 15 { session } else { 100 + 16 * session + index };
            *question = (long_name(name, Unlike::Early), ANY);
        }
    }
    state
}

fn batches(state: &State, cases: &mut Vec<Case>) {
    let mut add = |call: &str, calls: Vec<Call>| cases.push(state.case(call, calls));
    if let Some(record) = state.records.first() {
        let one = std::slice::from_ref(record);
        add("batch of 1: TTL", vec![batch(puts(one, 121)), batch(puts(one, 120))]);
        add("batch of 1: delete, put back", vec![batch(puts(one, DELETE)), batch(puts(one, 120))]);
    } else {
        let one = &state.spare[..1];
        add("batch of 1: put, delete", vec![batch(puts(one, 120)), batch(puts(one, DELETE))]);
    }
    if state.records.len() >= 32 {
        let many = &state.records[..32];
        add("batch of 32: TTLs", vec![batch(puts(many, 121)), batch(puts(many, 120))]);
        add("batch of 32: delete, put back", vec![batch(puts(many, DELETE)), batch(puts(many, 120))]);
    } else {
        let (held, spare) = (&state.records, &state.spare);
        let there = puts(held, 121).into_iter().chain(puts(spare, 120));
        let back = puts(held, 120).into_iter().chain(puts(spare, DELETE));
        add("batch of 32: TTLs and puts, TTLs and deletes", vec![batch(there), batch(back)]);
    }
}

/// Messages of each kind to the state's first session.
fn messages(state: &State, cases: &mut Vec<Case>) {
    let held = state.sessions[0].len() as u16;
    let (asked, rtype) = state.sessions[0].first().cloned().unwrap_or((dotted("till.shop.example"), ANY));
    let mut one = |call: &str, bytes: Vec<u8>| cases.push(state.case(call, vec![message(0, bytes)]));
    one("message: Keepalive", craft::keepalive(900, 1, 1));
    one("message: RECONFIRM", craft::reconfirm(&asked, A, IN, &[192, 0, 2, 1]));
    one("message: UNSUBSCRIBE, unknown ID", craft::unsubscribe(900));
    one("message: SUBSCRIBE, NOTAUTH", craft::subscribe(900, &dotted("printer.elsewhere.example"), A, IN));
    one("message: FORMERR", craft::message(900, craft::REQUEST, &craft::tlv(1, &[0; 7])));
    one("message: DSOTYPENI", craft::message(900, craft::REQUEST, &craft::tlv(0x99, &[0; 7])));
    one("message: not ours", craft::message(900, 0, &[]));
    if held == 16 {
        one("message: SUBSCRIBE, SERVFAIL", craft::subscribe(900, &long_name(200, Unlike::Early), A, IN));
    }
    let id = if held == 0 { 900 } else { 1 };
    let pair = [craft::unsubscribe(id), craft::subscribe(id, &asked, rtype, IN)];
    cases.push(state.case("message: UNSUBSCRIBE, SUBSCRIBE", pair.map(|bytes| message(0, bytes)).to_vec()));
}

fn others(state: &State, cases: &mut Vec<Case>) {
    cases.push(state.case("tick", vec![Call::Tick { time: TIME }]));
    let mut room = state.clone();
    room.sessions.truncate(3);
    let session = room.sessions.len() as u64;
    cases.push(room.case("open, close", vec![Call::Open { time: TIME }, Call::Close { time: TIME, session }]));
    let abort = message(session, vec![0; 3]);
    cases.push(room.case("open, message: abort", vec![Call::Open { time: TIME }, abort]));
}

fn kinds() -> Vec<Case> {
    let of = |name: &[u8]| {
        vec![
            craft::keepalive(9, 1, 1),
            craft::subscribe(9, name, A, IN),
            craft::unsubscribe(9),
            craft::reconfirm(name, A, IN, &[192, 0, 2, 1]),
            craft::message(9, craft::REQUEST, &craft::tlv(0x99, &[0; 7])),
            craft::message(9, 0, &[]),
            craft::message(9, craft::REQUEST, &[]),
            vec![0; 11],
        ]
    };
    let case = |call: &str, messages: Vec<Vec<u8>>| Case {
        state: "no server".to_string(),
        call: call.to_string(),
        setup: Vec::new(),
        work: Work::Kinds(messages),
    };
    let mut many = craft::keepalive(9, 1, 1);
    (0..1000).for_each(|_| many.extend(craft::tlv(3, &[0; 8])));
    vec![
        case("judge 8 kinds, short names", of(&dotted("printer.shop.example"))),
        case("judge 8 kinds, long names", of(&long_name(0, Unlike::Early))),
        case("judge a message of 1,001 TLVs", vec![many]),
    ]
}

/// All that the table has.
pub fn table() -> Vec<Case> {
    let full = all_match("full, all match", 4, 16, 40, Unlike::Early);
    let late = all_match("full, all match, alike", 4, 16, 40, Unlike::Late);
    let mut cases = kinds();
    for state in [empty(), typical(), full] {
        others(&state, &mut cases);
        messages(&state, &mut cases);
        batches(&state, &mut cases);
    }
    for state in [few_match(), late] {
        batches(&state, &mut cases);
    }
    cases
}

/// A batch of one or of 32 edits on servers of growing size, each with its size in place of the call's name.
pub fn growth() -> Vec<Case> {
    let mut cases = Vec::new();
    let mut add = |label: &str, size: usize, edits: usize, state: State| {
        let some = &state.records[..edits];
        let calls = vec![batch(puts(some, 121)), batch(puts(some, 120))];
        let label = format!("{label}, batch of {edits}");
        cases.push(Case { state: label, call: size.to_string(), setup: state.setup(), work: Work::Calls(calls) });
    };
    for subscriptions in [0, 1, 2, 4, 6, 8, 10, 12, 14, 16] {
        for edits in [1, 32] {
            let state = all_match("", 4, subscriptions, 40, Unlike::Early);
            add("subscriptions", 4 * subscriptions, edits, state);
        }
    }
    for records in [1, 4, 8, 12, 16, 20, 24, 28, 32, 36, 40] {
        let state = all_match("", 4, 16, records, Unlike::Early);
        add("records", records, 1, state);
    }
    cases
}
