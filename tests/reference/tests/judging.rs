//! Judging messages: the order of the steps, by bytes and in a session, and the clocks they restart.

mod common;

use common::*;
use reference::call::Answer;
use reference::craft::{dotted, keepalive, message, question, reconfirm, subscribe, tlv, unsubscribe, REQUEST};
use reference::kind_cases;
use reference::message::{kind, Parts, Place};
use reference::server::Server;

const SAMPLE: [u8; 8] = [0, 0, 1, 0, 0, 0, 1, 0];

fn with_count(mut bytes: Vec<u8>) -> Vec<u8> {
    bytes[5] = 1;
    bytes
}

#[test]
fn step_1_length_then_opcode_then_qr() {
    assert_eq!(kind(&[]), 41);
    assert_eq!(kind(&[0; 11]), 41, "short comes before the opcode");
    assert_eq!(kind(&[0; 12]), 40);
    assert_eq!(kind(&message(1, 0x8000, &[])), 40, "the opcode comes before QR");
    assert_eq!(kind(&message(1, 0xb000, &[])), 41, "QR comes before bad form");
    assert_eq!(kind(&message(1, 0x3fff & !0x0800, &[])), 42, "Z and RCODE are ignored");
    assert_eq!(kind(&message(1, 0x37ff, &tlv(1, &SAMPLE))), 44);
}

#[test]
fn step_3_bad_form_by_id() {
    for (id, expected) in [(0, 41), (1, 42), (0x0100, 42)] {
        assert_eq!(kind(&message(id, REQUEST, &[])), expected, "no TLV");
        assert_eq!(kind(&message(id, REQUEST, &[0, 1, 0])), expected, "half a TLV header");
        assert_eq!(kind(&message(id, REQUEST, &[0, 1, 0, 8, 1])), expected, "data cut short");
        assert_eq!(
            kind(&message(id, REQUEST, &[tlv(1, &SAMPLE), vec![0; 3]].concat())),
            expected,
            "bytes after the last TLV"
        );
        assert_eq!(
            kind(&message(id, REQUEST, &[tlv(1, &SAMPLE), vec![0, 9, 0, 1]].concat())),
            expected,
            "a later TLV cut short"
        );
        assert_eq!(kind(&with_count(message(id, REQUEST, &tlv(2, &[])))), expected, "counts come before types");
        assert_eq!(kind(&with_count(message(id, REQUEST, &tlv(0x41, &[])))), expected);
    }
}

#[test]
fn step_4_by_first_type() {
    for id in [0, 5] {
        assert_eq!(kind(&message(id, REQUEST, &tlv(2, &[0; 4]))), 41);
        assert_eq!(kind(&message(id, REQUEST, &tlv(0x41, &[]))), 41);
    }
    for tlv_type in [0, 3, 4, 0x3f, 0x44, 0x100, 0x4000, 0xffff] {
        assert_eq!(kind(&message(0, REQUEST, &tlv(tlv_type, &[]))), 41);
        assert_eq!(kind(&message(5, REQUEST, &tlv(tlv_type, &[1]))), 43);
    }
    assert_eq!(kind(&message(0, REQUEST, &tlv(1, &SAMPLE))), 41);
    assert_eq!(kind(&message(0, REQUEST, &tlv(1, &[]))), 41, "the ID comes before the data");
    assert_eq!(kind(&message(0, REQUEST, &tlv(0x40, &question(&[0], 1, 1)))), 41);
    assert_eq!(kind(&message(5, REQUEST, &tlv(0x42, &[0, 1]))), 41);
    assert_eq!(kind(&message(5, REQUEST, &tlv(0x43, &question(&[0], 1, 1)))), 41);
    assert_eq!(
        kind(&message(5, REQUEST, &[tlv(1, &SAMPLE), tlv(2, &[]), tlv(0x41, &[1])].concat())),
        44,
        "later TLVs are ignored"
    );
}

#[test]
fn step_5_and_the_data_rules() {
    for (length, expected) in [(0, 42), (7, 42), (8, 44), (9, 42)] {
        assert_eq!(kind(&message(5, REQUEST, &tlv(1, &vec![0; length]))), expected);
    }
    for (length, expected) in [(0, 41), (1, 41), (2, 46), (3, 41)] {
        assert_eq!(kind(&message(0, REQUEST, &tlv(0x42, &vec![0; length]))), expected);
    }
    let name = dotted("x.y");
    for (extra, subscribed, reconfirmed) in [(0, 42, 41), (3, 42, 41), (4, 45, 47), (5, 42, 47), (400, 42, 47)] {
        let data = [name.clone(), vec![1; extra]].concat();
        assert_eq!(kind(&message(5, REQUEST, &tlv(0x40, &data))), subscribed, "{extra}");
        assert_eq!(kind(&message(0, REQUEST, &tlv(0x43, &data))), reconfirmed, "{extra}");
    }
    assert_eq!(kind(&subscribe(5, &name, ANY, ANY)), 45);
    assert_eq!(kind(&subscribe(5, &name, 0, 0)), 45);
    assert_eq!(kind(&reconfirm(&name, ANY, 1, &[])), 41);
    assert_eq!(kind(&reconfirm(&name, 1, ANY, &[])), 41);
    assert_eq!(kind(&reconfirm(&name, 0, 0, &[])), 47);
    assert_eq!(kind(&reconfirm(&[0xc0, 12], 1, 1, &[0; 9])), 41);
    assert_eq!(kind(&subscribe(5, &[0xc0, 12], 1, 1)), 42);
}

#[test]
fn the_longest_message() {
    let mut bytes = keepalive(1, 0, 0);
    bytes.extend_from_slice(&tlv(3, &vec![0; 65_535 - 28]));
    assert_eq!((bytes.len(), kind(&bytes)), (65_535, 44));
    let mut server = served();
    assert_eq!(send(&mut server, 0, 0, &bytes).answer.number(), 2);
    bytes.push(0);
    assert_eq!(kind(&bytes), 18);
    assert_eq!(send(&mut server, 0, 0, &bytes).answer.number(), 18);
    assert_eq!(send(&mut server, 0, 1, &bytes).answer.number(), 10, "10 comes before 18");
}

#[test]
fn the_written_kinds_hold_all_nine() {
    let cases = kind_cases::cases(1, 0);
    for wanted in [18, 40, 41, 42, 43, 44, 45, 46, 47] {
        assert!(cases.iter().any(|(_, kind)| *kind == wanted), "{wanted}");
    }
    assert!(cases.iter().any(|(bytes, kind)| bytes.len() == 65_535 && *kind != 18));
    assert!(cases.iter().all(|(bytes, kind)| (bytes.len() > 65_535) == (*kind == 18)));
}

/// A server with session 0 open and message ID 7 held by a subscription to A records of a.shop.example.
fn served() -> Server {
    let mut server = server();
    open(&mut server, 0);
    assert_eq!(rcode(&send(&mut server, 0, 0, &subscribe(7, &dotted("a.shop.example"), A, 1)), 0), 0);
    server
}

fn answer_to(bytes: &[u8]) -> (u32, Option<u8>) {
    let mut server = served();
    let outcome = send(&mut server, 0, 0, bytes);
    let code = (outcome.answer == Answer::Sent).then(|| rcode(&outcome, 0));
    assert_eq!(outcome.answer == Answer::Aborted, server.sessions[0].is_none());
    (outcome.answer.number(), code)
}

#[test]
fn a_used_id_aborts_only_at_its_step() {
    let inside = dotted("a.shop.example");
    assert_eq!(answer_to(&keepalive(7, 0, 0)), (4, None));
    assert_eq!(answer_to(&subscribe(7, &inside, SRV, 1)), (4, None));
    assert_eq!(answer_to(&subscribe(7, &dotted("other"), SRV, 1)), (4, None), "before NOTAUTH");
    assert_eq!(answer_to(&message(7, REQUEST, &tlv(1, &[0; 7]))), (2, Some(1)), "after malformed data");
    assert_eq!(answer_to(&message(7, REQUEST, &tlv(0x40, &[0]))), (2, Some(1)));
    assert_eq!(answer_to(&message(7, REQUEST, &tlv(9, &[]))), (2, Some(11)), "after DSOTYPENI");
    assert_eq!(answer_to(&message(7, REQUEST, &[])), (2, Some(1)), "after bad form");
    assert_eq!(answer_to(&message(7, 0, &[])), (3, None));
    assert_eq!(answer_to(&keepalive(8, 0, 0)), (2, Some(0)));
}

#[test]
fn a_subscribe_is_tried_in_order() {
    assert_eq!(answer_to(&subscribe(8, &dotted("shop.example.x"), A, 1)), (2, Some(9)));
    assert_eq!(
        answer_to(&subscribe(8, &dotted("A.shop.EXAMPLE"), A, 1)),
        (4, None),
        "spelling makes no other subscription"
    );
    assert_eq!(answer_to(&subscribe(8, &dotted("a.shop.example"), A, 3)), (2, Some(0)));
    let mut server = served();
    for id in 100..115 {
        send(&mut server, 0, 0, &subscribe(id, &dotted("b.shop.example"), id, 1));
    }
    assert_eq!(rcode(&send(&mut server, 0, 0, &subscribe(8, &dotted("other"), A, 1)), 0), 9, "NOTAUTH before SERVFAIL");
    assert_eq!(rcode(&send(&mut server, 0, 0, &subscribe(8, &dotted("c.shop.example"), A, 1)), 0), 2);
    assert_eq!(
        send(&mut server, 0, 0, &subscribe(8, &dotted("a.shop.example"), A, 1)).answer.number(),
        4,
        "a duplicate before SERVFAIL"
    );
}

#[test]
fn unsubscribe_frees_its_id_and_place() {
    let mut server = served();
    assert_eq!(send(&mut server, 0, 0, &unsubscribe(8)).answer.number(), 1);
    assert_eq!(server.sessions[0].as_ref().unwrap().subscriptions.len(), 1);
    assert_eq!(send(&mut server, 0, 0, &unsubscribe(7)).answer.number(), 1);
    assert_eq!(rcode(&send(&mut server, 0, 0, &subscribe(7, &dotted("a.shop.example"), A, 1)), 0), 0);
}

#[test]
fn reconfirm_tells_the_places_of_its_parts() {
    let outcome = send(&mut served(), 0, 0, &reconfirm(&dotted("ab.c"), 16, 1, &[1, 2, 3]));
    let place = |start, length| Place { start, length };
    let parts = Parts { name: place(16, 6), rtype: place(22, 2), class: place(24, 2), rdata: place(26, 3) };
    assert_eq!(outcome.answer, Answer::Reconfirm(parts));
    assert_eq!(outcome.answer.number(), 5);
    assert!(outcome.output.iter().all(Vec::is_empty));
}

/// When the two clocks last started, after a message at 9,000.
fn clocks_after(bytes: &[u8]) -> (u64, u64, u32, u32) {
    let mut server = served();
    send(&mut server, 9_000, 0, bytes);
    let clocks = &server.sessions[0].as_ref().expect("no abort").clocks;
    (clocks.inactivity_start, clocks.keepalive_start, clocks.timeout, clocks.interval)
}

#[test]
fn what_a_message_restarts() {
    let both = (9_000, 9_000, 15_000, 15_000);
    assert_eq!(clocks_after(&keepalive(1, 0, 0)), (0, 9_000, 15_000, 60_000));
    assert_eq!(clocks_after(&message(1, REQUEST, &tlv(1, &[0; 7]))), (0, 9_000, 15_000, 15_000), "malformed data");
    assert_eq!(clocks_after(&message(1, REQUEST, &[0, 1, 0, 8])), both, "bad form does not come to step 4");
    assert_eq!(clocks_after(&with_count(keepalive(1, 0, 0))), both);
    assert_eq!(clocks_after(&message(1, 0, &tlv(1, &SAMPLE))), both, "another opcode");
    assert_eq!(clocks_after(&message(1, REQUEST, &tlv(9, &[]))), both);
    assert_eq!(clocks_after(&subscribe(1, &dotted("other"), A, 1)), both);
    assert_eq!(clocks_after(&unsubscribe(1)), both);
    assert_eq!(clocks_after(&reconfirm(&[0], 1, 1, &[])), both);
}
