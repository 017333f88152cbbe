//! The replay program's text.

use reference::replay::{read_line, replay, write_line};
use reference::script::script;

fn one(line: &str) -> String {
    replay(line.as_bytes())
}

const UNREADABLE: &str = "?\t19\t-\t-\n";

#[test]
fn unreadable_lines() {
    for line in [
        "\n",
        " open\t1",
        "open",
        "open\t",
        "open\t01",
        "open\t00",
        "open\t-1",
        "open\t+1",
        "open\t1 ",
        "open\t1\r",
        "open\t1\t",
        "open 1",
        "OPEN\t1",
        "open\t18446744073709551616",
        "open\t0x1",
        "close\t1",
        "close\t1\t",
        "close\t1\t01",
        "close\t1\t0\t",
        "msg\t1\t0",
        "msg\t1\t0\t0",
        "msg\t1\t0\t0A",
        "msg\t1\t0\t0g",
        "msg\t1\t0\t00\t",
        "batch\t1",
        "batch\t1\t 00",
        "batch\t1\t00\t00",
        "tick",
        "tick\t1\t0",
        "start\t1",
        "\topen\t1",
        "?",
    ] {
        assert_eq!(one(line), UNREADABLE, "{line:?}");
    }
    assert_eq!(replay(b"open\t\xff1"), UNREADABLE);
    assert_eq!(replay(b"open\t1\0"), UNREADABLE);
}

#[test]
fn lines_and_their_ends() {
    assert_eq!(one(""), "");
    assert_eq!(one("\n\n"), UNREADABLE.repeat(2));
    assert_eq!(one("open\t0"), "open\t1\t0\t-\n");
    assert_eq!(one("open\t0\n\nopen\t0"), format!("open\t1\t0\t-\n{UNREADABLE}open\t1\t1\t-\n"));
}

#[test]
fn numbers_up_to_64_bits() {
    assert_eq!(one("open\t18446744073709551615"), "open\t1\t0\t-\n");
    assert_eq!(one("close\t0\t18446744073709551615"), "close\t10\t18446744073709551615\t-\n");
    assert_eq!(one("msg\t0\t4\t"), "msg\t10\t4\t-\n");
    assert_eq!(one("msg\t0\t4294967296\t00"), "msg\t10\t4294967296\t-\n");
}

#[test]
fn the_longest_line() {
    let line = |digits: usize| format!("msg\t0\t0\t{}", "0".repeat(digits));
    let fits = line(32_760);
    assert_eq!(fits.len(), 32_768);
    assert_eq!(one(&fits), "msg\t10\t0\t-\n");
    assert_eq!(one(&format!("{fits}\n")), "msg\t10\t0\t-\n");
    let over = format!("msg\t0\t10\t{}", "0".repeat(32_760));
    assert_eq!(over.len(), 32_769);
    assert_eq!(one(&over), UNREADABLE);
}

#[test]
fn each_answer_has_its_line() {
    let input = "open\t1\nopen\t1\nopen\t1\nopen\t1\nopen\t2\nopen\t0\nclose\t2\t3\nclose\t2\t3\n\
        msg\t2\t2\t\n\
        msg\t2\t0\t000000000000000000000000\n\
        msg\t2\t0\t00003000000000000000000000420002ffff\n\
        msg\t2\t0\t000030000000000000000000004300050000010001\n\
        msg\t2\t0\t000730000000000000000000\n\
        batch\t2\t\nbatch\t2\tff\nbatch\t1\t\n\
        tick\t30000\ntick\t30001\ntick\t30002\ntick\t30000\n";
    let output = "open\t1\t0\t-\nopen\t1\t1\t-\nopen\t1\t2\t-\nopen\t1\t3\t-\nopen\t13\t-\t-\nopen\t11\t-\t-\nclose\t1\t3\t-\nclose\t10\t3\t-\n\
        msg\t4\t2\t-\n\
        msg\t3\t0\t-\n\
        msg\t1\t0\t-\n\
        msg\t5\t0\t-\n\
        msg\t2\t0\t00140007b001000000000000000000020004000493e0\n\
        batch\t1\t-\t-\nbatch\t14\t-\t-\nbatch\t11\t-\t-\n\
        tick\t1\t-\t-\ntick\t4\t1\t-\ntick\t4\t0\t-\ntick\t11\t-\t-\n";
    assert_eq!(one(input), output);
}

#[test]
fn a_batch_writes_one_line_for_each_session() {
    let subscribe = "1234300000000000000000000040001401610473686f70076578616d706c650000010001";
    let put = "01610473686f70076578616d706c650000010001000000780004c0000201";
    let input = format!("open\t1\nopen\t1\nopen\t1\nmsg\t1\t0\t{subscribe}\nmsg\t1\t2\t{subscribe}\nbatch\t1\t{put}\n");
    let pushed = format!("002e0000300000000000000000000041001e{put}");
    let output = one(&input);
    let lines: Vec<&str> = output.lines().skip(5).collect();
    assert_eq!(lines, [format!("batch\t2\t0\t{pushed}"), format!("batch\t2\t2\t{pushed}")]);
}

#[test]
fn a_tick_writes_one_line_for_each_ended_session() {
    let output = one("open\t1\nopen\t1\nopen\t1\nmsg\t5\t1\t000000000000000000000000\ntick\t30001\n");
    assert!(output.ends_with("msg\t3\t1\t-\ntick\t4\t0\t-\ntick\t4\t2\t-\n"));
    assert_eq!(output.lines().count(), 6);
}

#[test]
fn scripts_have_their_lines_and_repeat_by_seed() {
    for seed in 1..20 {
        let text = script(seed, 200);
        assert_eq!(text, script(seed, 200));
        assert_eq!(text.ends_with(b"\n"), seed % 2 != 1);
        let lines: Vec<&[u8]> = text.split(|byte| *byte == b'\n').collect();
        assert_eq!(lines.len() - usize::from(seed % 2 != 1), 200, "seed {seed}");
        for line in lines {
            if let Some(call) = read_line(line) {
                assert_eq!(write_line(&call).as_bytes(), line);
            }
        }
    }
}
