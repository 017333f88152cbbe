//! Calls: sessions, clocks, refusals and the lent output.

mod common;

use common::*;
use reference::call::{Call, Refusal};
use reference::craft::{dotted, edit, keepalive, message, subscribe, tlv, unsubscribe, REQUEST};
use reference::server::{Server, OUTPUT, SESSION_OUTPUT};

fn put(number: u16) -> Vec<u8> {
    a_edit(A, PUT, &number.to_be_bytes())
}

#[test]
fn a_start_needs_a_name() {
    for bad in [&[][..], &[1, b'a'], &[0, 0], &[64], &[0xc0, 0]] {
        assert_eq!(Server::start(bad), Err(Refusal::NoZoneName));
    }
    assert_eq!(Refusal::NoZoneName as u32, 20);
    assert_eq!(Server::start(&[0]).map(|server| server.latest), Ok(0));
}

#[test]
fn sessions_are_used_again_from_the_lowest() {
    let mut server = server();
    assert_eq!([0, 1, 2, 3].map(|_| open(&mut server, 0)), [0, 1, 2, 3]);
    assert_eq!(server.call(&Call::Open { time: 9 }).answer.number(), 13);
    assert_eq!(server.latest, 0, "a refusal leaves the clock");
    assert_eq!(send(&mut server, 1, 1, &[]).answer.number(), 4);
    assert_eq!(server.latest, 1);
    assert_eq!(server.call(&Call::Close { time: 1, session: 3 }).answer.number(), 1);
    for session in [1, 3, 4, 1 << 32, u64::MAX] {
        assert_eq!(server.call(&Call::Close { time: 2, session }).answer.number(), 10);
        assert_eq!(send(&mut server, 2, session, &keepalive(1, 0, 0)).answer.number(), 10);
    }
    assert_eq!((open(&mut server, 2), open(&mut server, 2)), (1, 3));
}

#[test]
fn a_session_that_is_used_again_starts_anew() {
    let mut server = server();
    open(&mut server, 0);
    send(&mut server, 0, 0, &subscribe(1, &dotted("a.shop.example"), A, 1));
    send(&mut server, 0, 0, &keepalive(2, 0, 0));
    server.call(&Call::Close { time: 5, session: 0 });
    open(&mut server, 6);
    assert_eq!(batch(&mut server, 6, &[put(1)]).answer.number(), 1);
    assert_eq!(tick(&mut server, 30_005), [false; 4]);
    assert!(tick(&mut server, 30_006)[0]);
}

#[test]
fn keepalive_runs_out_at_twice_its_interval() {
    let mut server = server();
    open(&mut server, 0);
    send(&mut server, 100, 0, &subscribe(1, &dotted("a.shop.example"), A, 1));
    let mut later = server.clone();
    assert_eq!(tick(&mut server, 30_099), [false; 4]);
    assert!(tick(&mut server, 30_100)[0], "a subscription does not stop the keepalive clock");
    send(&mut later, 200, 0, &keepalive(2, 0, 0));
    assert_eq!(tick(&mut later, 120_199), [false; 4]);
    assert!(tick(&mut later, 120_200)[0]);
}

#[test]
fn inactivity_runs_on_under_keepalives_and_subscriptions() {
    let mut server = server();
    open(&mut server, 0);
    send(&mut server, 1_000, 0, &keepalive(2, 0, 0));
    assert_eq!(tick(&mut server, 29_999), [false; 4]);
    let mut other = server.clone();
    assert!(tick(&mut server, 30_000)[0]);
    send(&mut other, 29_999, 0, &subscribe(1, &dotted("a.shop.example"), A, 1));
    assert_eq!(tick(&mut other, 100_000), [false; 4]);
    send(&mut other, 100_000, 0, &unsubscribe(1));
    assert_eq!(tick(&mut other, 129_999), [false; 4]);
    assert!(tick(&mut other, 130_000)[0]);
}

#[test]
fn sending_restarts_nothing() {
    let mut server = server();
    open(&mut server, 0);
    send(&mut server, 0, 0, &subscribe(1, &dotted("a.shop.example"), A, 1));
    assert_eq!(batch(&mut server, 20_000, &[put(1)]).answer.number(), 2);
    assert!(tick(&mut server, 30_000)[0]);
}

#[test]
fn a_malformed_keepalive_grants_nothing() {
    let mut server = server();
    open(&mut server, 0);
    assert_eq!(rcode(&send(&mut server, 10_000, 0, &message(1, REQUEST, &tlv(1, &[0; 9]))), 0), 1);
    assert_eq!(tick(&mut server, 29_999), [false; 4]);
    assert!(tick(&mut server, 30_000)[0], "inactivity from the opening");
}

#[test]
fn the_last_times_of_64_bits() {
    let mut server = server();
    open(&mut server, u64::MAX - 30_000);
    assert_eq!(tick(&mut server, u64::MAX - 1), [false; 4]);
    assert!(tick(&mut server, u64::MAX)[0]);
    assert_eq!(open(&mut server, u64::MAX), 0);
    assert_eq!(tick(&mut server, u64::MAX), [false; 4]);
}

#[test]
fn output_is_lent_as_one_slice() {
    let mut server = server();
    let mut out = vec![0xaa; OUTPUT];
    assert_eq!([0, 1, 2].map(|_| open(&mut server, 5)), [0, 1, 2]);
    for session in [0, 2] {
        let bytes = subscribe(1, &dotted("a.shop.example"), A, 1);
        assert_eq!(server.call_into(&Call::Message { time: 5, session, bytes }, &mut out).answer.number(), 2);
    }
    out.fill(0xaa);
    let outcome = server.call_into(&Call::Batch { time: 5, edits: put(1) }, &mut out);
    for (number, length) in [44, 0, 44, 0].into_iter().enumerate() {
        let start = number * SESSION_OUTPUT;
        assert_eq!(outcome.output[number].len(), length + if length > 0 { 2 } else { 0 });
        assert_eq!(out[start..start + outcome.output[number].len()], outcome.output[number]);
        assert!(out[start + outcome.output[number].len()..start + SESSION_OUTPUT].iter().all(|byte| *byte == 0xaa));
    }
}

#[test]
fn short_output_is_refused_first() {
    let mut server = server();
    open(&mut server, 5);
    let before = server.clone();
    let mut short = vec![0; OUTPUT - 1];
    for call in [Call::Batch { time: 4, edits: vec![1] }, Call::Message { time: 4, session: 9, bytes: vec![0; 65_536] }]
    {
        assert_eq!(server.call_into(&call, &mut short).answer.number(), 12);
    }
    assert_eq!(server, before);
    assert_eq!(server.call_into(&Call::Tick { time: 5 }, &mut []).answer.number(), 1);
    assert_eq!(server.call_into(&Call::Open { time: 5 }, &mut []).opened, Some(1));
    assert_eq!(server.call_into(&Call::Close { time: 5, session: 1 }, &mut []).answer.number(), 1);
}

#[test]
fn the_largest_push_fits() {
    let mut server = server();
    let long = reference::craft::stretched(&dotted("shop.example"), 255, b'n');
    let all: Vec<Vec<u8>> = (0..40u8).map(|number| edit(&long, A, 1, PUT, &[number; 128])).collect();
    assert_eq!(batch(&mut server, 0, &all[..32]).answer.number(), 1);
    assert_eq!(batch(&mut server, 0, &all[32..]).answer.number(), 1);
    open(&mut server, 0);
    let mut out = vec![0; OUTPUT];
    let bytes = subscribe(1, &long, A, 1);
    let outcome = server.call_into(&Call::Message { time: 0, session: 0, bytes }, &mut out);
    assert_eq!(outcome.output[0].len(), 14 + 2 + 15_736);
}
