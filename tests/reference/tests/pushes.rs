//! The cases of subscriptions, batches and PUSHes: their form, what they reach, and the observer's judgment of them.

mod common;

use common::*;
use reference::book::{edit as book_edit, Entry};
use reference::call::{Answer, Call, Outcome, Refusal};
use reference::craft::{dotted, edit, message, subscribe, unsubscribe};
use reference::hex;
use reference::observer::Observer;
use reference::push_cases::{cases, Bench, LONGEST_LINE, LONGEST_RUN, MOST_BYTES, SHORTEST_RUN};
use reference::reading::{frames, Frame, Notice, Rest};
use std::collections::BTreeMap;

const SEEDS: [u64; 4] = [1, 2, 3, u64::MAX];

/// Input lines with their output lines, each as fields, by runs.
fn runs(bench: &Bench) -> Vec<Vec<(Vec<&str>, Vec<&str>)>> {
    let mut runs = Vec::new();
    for (input, output) in bench.input.lines().zip(bench.output.lines()) {
        if input == "fresh" {
            runs.push(Vec::new());
        }
        let run = runs.last_mut().expect("a run begins with fresh");
        run.push((input.split('\t').collect(), output.split('\t').collect()));
    }
    runs
}

fn bytes(field: &str) -> Vec<u8> {
    hex::read(field.as_bytes()).expect("whole lowercase bytes")
}

/// The bytes of an output's last field, `-` for none.
fn written(field: &str) -> Vec<u8> {
    match field {
        "-" => Vec::new(),
        digits => bytes(digits),
    }
}

#[test]
fn the_files_keep_to_their_form() {
    for seed in SEEDS {
        let bench = cases(seed);
        assert!((1_500..=2_500).contains(&bench.lines), "{}", bench.lines);
        for text in [&bench.input, &bench.output] {
            assert_eq!(text.lines().count(), bench.lines);
            assert!(text.ends_with('\n') && text.len() <= MOST_BYTES);
            assert!(text.lines().all(|line| line.len() + 1 < LONGEST_LINE));
        }
        for run in runs(&bench) {
            assert!((SHORTEST_RUN..=LONGEST_RUN).contains(&run.len()), "{}", run.len());
            for (input, output) in run {
                let fields = match input[0] {
                    "fresh" => (1, 2),
                    "subscribe" => (5, 2),
                    "unsubscribe" => (2, 2),
                    "batch" => (2, 3),
                    other => panic!("{other}"),
                };
                assert_eq!((input.len(), output.len()), fields);
                assert_eq!(input[0], output[0]);
            }
        }
    }
}

#[test]
fn a_seed_names_its_cases() {
    let (first, again, other) = (cases(5), cases(5), cases(6));
    assert_eq!((&first.input, &first.output), (&again.input, &again.output));
    assert_ne!(first.input, other.input);
}

/// The first fault of a batch, judged with the observer's reader and store.
fn fault(store: &[Entry], batch: &[u8]) -> Option<Refusal> {
    let (mut store, mut rest) = (store.to_vec(), Rest(batch));
    for count in 0.. {
        if rest.0.is_empty() {
            return None;
        }
        if count == 32 {
            return Some(Refusal::TooManyEdits);
        }
        let Ok(notice) = rest.notice() else { return Some(Refusal::BatchUnparsed) };
        let named = |field: u16| field != 0 && field != 255;
        let sound = (notice.is_add() || notice.ttl == DELETE) && named(notice.rtype) && named(notice.class);
        if !sound || notice.rdata.len() > 128 || !inside(&notice.name) {
            return Some(Refusal::EditValue);
        }
        book_edit(&mut store, &notice);
        if store.len() > 40 {
            return Some(Refusal::TableFull);
        }
    }
    None
}

/// Whether a name is shop.example with labels before it or none.
fn inside(name: &[u8]) -> bool {
    let mut rest = name;
    while rest.len() > 14 {
        rest = &rest[1 + usize::from(rest[0])..];
    }
    rest.eq_ignore_ascii_case(b"\x04shop\x07example\x00")
}

/// The call of an input line, and what the output line says came of it.
fn call_and_outcome(input: &[&str], output: &[&str], store: &[Entry]) -> (Call, Outcome) {
    let number = |field: &str| field.parse::<u16>().expect("a number");
    let mut outcome = Outcome::of(Answer::Done);
    let call = match input[0] {
        "fresh" => {
            outcome.opened = Some(0);
            Call::Open { time: 0 }
        }
        "subscribe" => {
            let id = number(input[1]);
            outcome.answer = Answer::Sent;
            outcome.output[0] = [vec![0, 12], message(id, 0xb000, &[]), written(output[1])].concat();
            let bytes = subscribe(id, &bytes(input[4]), number(input[2]), number(input[3]));
            Call::Message { time: 0, session: 0, bytes }
        }
        "unsubscribe" => Call::Message { time: 0, session: 0, bytes: unsubscribe(number(input[1])) },
        _ => {
            let edits = bytes(input[1]);
            let due = fault(store, &edits);
            outcome.output[0] = written(output[2]);
            outcome.answer = match due {
                Some(refusal) => Answer::Refused(refusal),
                None if outcome.output[0].is_empty() => Answer::Done,
                None => Answer::Sent,
            };
            assert_eq!(output[1], outcome.answer.number().to_string(), "{input:?}");
            Call::Batch { time: 0, edits }
        }
    };
    (call, outcome)
}

#[test]
fn the_observer_agrees_with_every_line() {
    for seed in SEEDS {
        for run in runs(&cases(seed)) {
            let mut observer = Observer::default();
            for (input, output) in &run {
                let (call, outcome) = call_and_outcome(input, output, &observer.store);
                let judged = observer.observe(&call, &outcome);
                assert!(judged.is_ok(), "{judged:?} at {input:?}");
            }
        }
    }
}

#[test]
fn subscriptions_are_sensible() {
    for run in SEEDS.map(cases).iter().flat_map(runs) {
        let mut live: BTreeMap<&str, (Vec<u8>, &str, &str)> = BTreeMap::new();
        for (input, _) in run {
            match input[..] {
                ["subscribe", id, rtype, class, name] => {
                    let name = bytes(name).to_ascii_lowercase();
                    assert!(id != "0" && inside(&name));
                    let asked = (name, rtype, class);
                    assert!(live.len() < 16 && live.values().all(|other| *other != asked));
                    assert!(live.insert(id, asked).is_none(), "{id} is held");
                }
                ["unsubscribe", id] => {
                    live.remove(id);
                }
                _ => {}
            }
        }
    }
}

fn kind(notice: &Notice) -> &'static str {
    match notice {
        Notice { ttl: 0xffff_ffff, .. } => "single",
        Notice { ttl: 0xffff_fffe, class: 255, .. } => "all classes",
        Notice { ttl: 0xffff_fffe, rtype: 255, .. } => "all types",
        Notice { ttl: 0xffff_fffe, .. } => "RRset",
        _ => "add",
    }
}

#[test]
fn the_cases_reach_every_answer_and_notice() {
    for seed in SEEDS {
        let (mut seen, mut most_notices, mut longest) = (BTreeMap::new(), (0, 0), 0);
        for (input, output) in runs(&cases(seed)).concat() {
            let answer =
                [&output[..output.len() - 1], &[if output.ends_with(&["-"]) { "-" } else { "bytes" }]].concat();
            *seen.entry(answer.join(" ")).or_insert(0) += 1;
            let push = written(output.last().expect("a field"));
            longest = longest.max(push.len());
            let list = frames(&push).expect("frames");
            let Some(Frame::Push(list)) = list.first() else { continue };
            let most = if input[0] == "batch" { &mut most_notices.0 } else { &mut most_notices.1 };
            *most = list.len().max(*most);
            list.iter().for_each(|notice| *seen.entry(kind(notice).to_string()).or_insert(0) += 1);
        }
        for (wanted, least) in [
            ("batch 1 -", 200),
            ("batch 2 bytes", 500),
            ("batch 14 -", 50),
            ("batch 15 -", 40),
            ("batch 16 -", 4),
            ("batch 17 -", 6),
            ("subscribe -", 50),
            ("subscribe bytes", 40),
            ("unsubscribe -", 40),
            ("fresh -", 40),
            ("single", 100),
            ("RRset", 200),
            ("all types", 30),
            ("all classes", 20),
            ("add", 500),
        ] {
            assert!(seen.get(wanted).is_some_and(|count| *count >= least), "{wanted}: {seen:?}");
        }
        assert_eq!(most_notices, (32, 40));
        assert!(longest > 14_900, "{longest}");
    }
}

#[test]
fn the_first_bench_example_as_lines() {
    let mut bench = Bench::new();
    let name = dotted("a.shop.example");
    bench.fresh();
    bench.batch(&edit(&name, A, 1, PUT, &[192, 0, 2, 1]));
    bench.subscribe(0x1234, &name, A, 1);
    bench.batch(&edit(&name, A, 1, DELETE, &[192, 0, 2, 1]));
    bench.unsubscribe(0x1234);
    bench.batch(&[1]);
    bench.batch(&[]);
    assert_eq!(
        bench.input,
        "fresh\n\
        batch\t01610473686f70076578616d706c650000010001000000780004c0000201\n\
        subscribe\t4660\t1\t1\t01610473686f70076578616d706c6500\n\
        batch\t01610473686f70076578616d706c650000010001ffffffff0004c0000201\n\
        unsubscribe\t4660\nbatch\t01\nbatch\t\n"
    );
    assert_eq!(
        bench.output,
        "fresh\t-\nbatch\t1\t-\n\
        subscribe\t002e0000300000000000000000000041001e01610473686f70076578616d706c650000010001000000780004c0000201\n\
        batch\t2\t002a0000300000000000000000000041001a01610473686f70076578616d706c650000010001fffffffe0000\n\
        unsubscribe\t-\nbatch\t14\t-\nbatch\t1\t-\n"
    );
}
