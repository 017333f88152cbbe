//! The thirteen bench examples.

mod common;

use common::*;
use reference::call::Call;
use reference::craft::{dotted, keepalive, name, stretched, subscribe};
use reference::hex;
use reference::notices::{Change, Removal, Scope};
use reference::replay::replay;

fn a_name() -> Vec<u8> {
    dotted("a.shop.example")
}

fn removal(scope: Scope) -> Change {
    Change::Remove(Removal { name: a_name(), scope })
}

#[test]
fn example_1_the_replay_run() {
    let input = "open\t1000\n\
        batch\t1000\t01610473686f70076578616d706c650000010001000000780004c0000201\n\
        msg\t1000\t0\t1234300000000000000000000040001401610473686f70076578616d706c650000010001\n";
    let output = "open\t1\t0\t-\n\
        batch\t1\t-\t-\n\
        msg\t2\t0\t000c1234b0000000000000000000002e0000300000000000000000000041001e01610473686f70076578616d706c650000010001000000780004c0000201\n";
    assert_eq!(replay(input.as_bytes()), output);
    assert_eq!(replay(input.trim_end().as_bytes()), output);
}

#[test]
fn example_2_label_of_63_and_64() {
    let mut server = server();
    open(&mut server, 0);
    for (label, code) in [(63, 0), (64, 1)] {
        let name = name(&[&vec![b'l'; label], b"shop", b"example"]);
        assert_eq!(rcode(&send(&mut server, 0, 0, &subscribe(label as u16, &name, A, 1)), 0), code);
    }
    assert_eq!(server.sessions[0].as_ref().unwrap().subscriptions.len(), 1);
}

#[test]
fn example_3_name_of_255_and_256() {
    let mut server = server();
    open(&mut server, 0);
    for (total, code, answer) in [(255, 0, 2), (256, 1, 14)] {
        let name = stretched(&dotted("shop.example"), total, b'n');
        assert_eq!(name.len(), total);
        assert_eq!(rcode(&send(&mut server, 0, 0, &subscribe(total as u16, &name, A, 1)), 0), code);
        let put = reference::craft::edit(&name, A, 1, PUT, &[]);
        assert_eq!(batch(&mut server, 0, &[put]).answer.number(), answer);
    }
}

#[test]
fn example_4_the_17th_subscription_is_servfail() {
    let mut server = server();
    open(&mut server, 0);
    for id in 1..=17u16 {
        let code = rcode(&send(&mut server, 0, 0, &subscribe(id, &a_name(), id, 1)), 0);
        assert_eq!(code, if id <= 16 { 0 } else { 2 });
    }
    assert_eq!(server.sessions[0].as_ref().unwrap().subscriptions.len(), 16);
    assert_eq!(rcode(&send(&mut server, 0, 0, &subscribe(17, &a_name(), 17, 1)), 0), 2, "the refused one is not live");
}

#[test]
fn example_5_idle_session_ends_at_31000() {
    let mut server = server();
    open(&mut server, 1_000);
    assert_eq!(tick(&mut server, 30_999), [false; 4]);
    assert_eq!(tick(&mut server, 31_000), [true, false, false, false]);
    assert_eq!(send(&mut server, 31_000, 0, &[]).answer.number(), 10);
}

#[test]
fn example_6_srv_and_txt_leave_and_nothing_remains() {
    let mut server = server();
    open(&mut server, 0);
    batch(&mut server, 0, &[a_edit(SRV, PUT, &[1]), a_edit(TXT, PUT, &[2])]);
    send(&mut server, 0, 0, &subscribe(1, &a_name(), ANY, ANY));
    let outcome = batch(&mut server, 0, &[a_edit(TXT, DELETE, &[2]), a_edit(SRV, DELETE, &[1])]);
    assert_eq!(pushed(&outcome), [removal(Scope::AllTypes { class: 1 })]);
    assert_eq!(
        hex::write(&outcome.output[0]),
        "002a0000300000000000000000000041001a01610473686f70076578616d706c650000ff0001fffffffe0000"
    );
}

#[test]
fn example_7_the_same_with_a_kept() {
    let mut server = server();
    open(&mut server, 0);
    batch(&mut server, 0, &[a_edit(SRV, PUT, &[1]), a_edit(A, PUT, &[9]), a_edit(TXT, PUT, &[2])]);
    send(&mut server, 0, 0, &subscribe(1, &a_name(), ANY, ANY));
    let outcome = batch(&mut server, 0, &[a_edit(TXT, DELETE, &[2]), a_edit(SRV, DELETE, &[1])]);
    assert_eq!(
        pushed(&outcome),
        [removal(Scope::Rrset { rtype: SRV, class: 1 }), removal(Scope::Rrset { rtype: TXT, class: 1 })]
    );
}

#[test]
fn example_8_two_of_three_aaaa_leave() {
    let mut server = server();
    open(&mut server, 0);
    batch(&mut server, 0, &[a_edit(AAAA, PUT, &[1]), a_edit(AAAA, PUT, &[2]), a_edit(AAAA, PUT, &[3])]);
    send(&mut server, 0, 0, &subscribe(1, &a_name(), AAAA, 1));
    let outcome = batch(&mut server, 0, &[a_edit(AAAA, DELETE, &[3]), a_edit(AAAA, DELETE, &[1])]);
    let single = |octet: u8| removal(Scope::Single { rtype: AAAA, class: 1, rdata: vec![octet] });
    assert_eq!(pushed(&outcome), [single(1), single(3)]);
}

#[test]
fn example_9_delete_and_put_the_same() {
    let mut server = server();
    open(&mut server, 0);
    batch(&mut server, 0, &[a_edit(A, PUT, &[1]), a_edit(A, PUT, &[2])]);
    send(&mut server, 0, 0, &subscribe(1, &a_name(), ANY, ANY));
    let outcome = batch(&mut server, 0, &[a_edit(A, DELETE, &[1]), a_edit(A, PUT, &[1])]);
    assert_eq!(outcome.answer.number(), 1);
    assert!(outcome.output.iter().all(Vec::is_empty));
    assert_eq!(server.records[1].rdata, [1], "it went to the end");
}

#[test]
fn example_10_matched_twice_is_added_once() {
    let mut server = server();
    open(&mut server, 0);
    send(&mut server, 0, 0, &subscribe(1, &a_name(), A, 1));
    send(&mut server, 0, 0, &subscribe(2, &a_name(), ANY, ANY));
    let outcome = batch(&mut server, 0, &[a_edit(A, PUT, &[192, 0, 2, 1])]);
    assert_eq!(pushed(&outcome), [Change::Add(server.records[0].clone())]);
}

#[test]
fn example_11_notauth_flags() {
    let mut server = server();
    open(&mut server, 0);
    let outcome = send(&mut server, 0, 0, &subscribe(0x0203, &dotted("a.xshop.example"), A, 1));
    assert_eq!(hex::write(&outcome.output[0]), "00140203b009000000000000000000020004000493e0");
}

#[test]
fn example_12_keepalive_reply() {
    let mut server = server();
    open(&mut server, 0);
    let outcome = send(&mut server, 0, 0, &keepalive(0xabcd, 1, 2));
    assert_eq!(hex::write(&outcome.output[0]), "0018abcdb00000000000000000000001000800003a980000ea60");
}

#[test]
fn example_13_time_goes_back() {
    let mut server = server();
    open(&mut server, 6);
    let before = server.clone();
    for call in [
        Call::Open { time: 5 },
        Call::Close { time: 5, session: 9 },
        Call::Message { time: 5, session: 9, bytes: vec![0; 70_000] },
        Call::Batch { time: 5, edits: vec![0xff] },
        Call::Tick { time: 5 },
    ] {
        assert_eq!(server.call(&call).answer.number(), 11);
        assert_eq!(server, before);
    }
}
