//! Cases of a question beside a record, and the commands that write cases.

use reference::book::{Asked, Key};
use reference::craft::{dotted, stretched};
use reference::hex;
use reference::match_cases::{cases, Case};
use reference::push_cases;
use reference::reading::Rest;
use std::process::{Command, Output};

fn case(asked: &[u8], question: (u16, u16), name: &[u8], record: (u16, u16)) -> u32 {
    Case { asked: asked.to_vec(), question, name: name.to_vec(), record }.answer()
}

#[test]
fn what_matches() {
    let (name, other) = (dotted("a.shop.example"), dotted("b.shop.example"));
    for (question, record, answer) in [
        ((1, 1), (1, 1), 1),
        ((1, 1), (16, 1), 2),
        ((255, 1), (16, 1), 1),
        ((1, 1), (1, 3), 2),
        ((1, 255), (1, 3), 1),
        ((1, 1), (5, 1), 1),
        ((0, 1), (5, 1), 1),
        ((1, 1), (5, 3), 2),
        ((5, 1), (1, 1), 2),
        ((1, 1), (255, 1), 2),
        ((1, 1), (1, 255), 2),
        ((255, 255), (255, 255), 1),
        ((254, 1), (1, 1), 2),
        ((0x01ff, 1), (1, 1), 2),
        ((1, 0xff00), (1, 1), 2),
        ((1, 1), (0x0105, 1), 2),
    ] {
        assert_eq!(case(&name, question, &name.to_ascii_uppercase(), record), answer, "{question:?} {record:?}");
        assert_eq!(case(&name, question, &other, record), 2, "other names");
        assert_eq!(case(&name, question, &name[1..], record), 3, "no name");
        assert_eq!(case(&[], question, &name, record), 3, "no octets");
    }
    let star = dotted("*.shop.example");
    assert_eq!(case(&star, (1, 1), &name, (1, 1)), 2);
    assert_eq!(case(&name, (1, 1), &star, (1, 1)), 2);
    assert_eq!(case(&star, (1, 1), &star, (1, 1)), 1);
    for (total, answer) in [(255, 1), (256, 3)] {
        let long = stretched(&name, total, b'n');
        assert_eq!(case(&long, (1, 1), &long, (1, 1)), answer);
    }
}

fn whole(octets: &[u8]) -> bool {
    let mut rest = Rest(octets);
    rest.name().is_ok() && rest.0.is_empty()
}

#[test]
fn the_observer_agrees_with_every_case() {
    let cases = cases(3, 5_000);
    assert_eq!(cases.len(), 5_000);
    let mut seen = [0; 3];
    for case in cases {
        let asked = Asked { id: 1, name: case.asked.clone(), rtype: case.question.0, class: case.question.1 };
        let (rtype, class) = case.record;
        let key = Key { name: case.name.to_ascii_lowercase(), class, rtype, rdata: Vec::new() };
        let due = match (whole(&case.asked) && whole(&case.name), asked.matches(&key)) {
            (false, _) => 3,
            (true, true) => 1,
            (true, false) => 2,
        };
        assert_eq!(case.answer(), due, "{case:?}");
        seen[due as usize - 1] += 1;
    }
    assert!(seen.iter().all(|count| *count > 300), "{seen:?}");
}

#[test]
fn the_fixed_cases_always_come() {
    let fixed = cases(1, 0);
    assert!((1_000..3_000).contains(&fixed.len()), "{}", fixed.len());
    for name in [&fixed[0].asked, &dotted("*.shop.example"), &vec![0], &vec![]] {
        assert!(fixed.iter().any(|case| case.asked == *name) && fixed.iter().any(|case| case.name == *name));
    }
    assert_eq!(cases(1, 4_000)[..fixed.len()], fixed);
    assert_ne!(cases(1, 4_000), cases(2, 4_000));
}

fn command(arguments: &[&str]) -> Output {
    Command::new(env!("CARGO_BIN_EXE_reference")).args(arguments).output().expect("the program runs")
}

#[test]
fn the_command_matches_writes_its_lines() {
    let output = command(&["matches", "--seed", "7", "--count", "2500"]);
    assert!(output.status.success());
    let text = String::from_utf8(output.stdout).expect("text");
    assert!(text.ends_with('\n'));
    let cases = cases(7, 2_500);
    assert_eq!(text.lines().count(), cases.len());
    for (line, case) in text.lines().zip(cases) {
        let fields: Vec<&str> = line.split('\t').collect();
        let [asked, qtype, qclass, name, rtype, class, answer] = fields[..] else { panic!("{line}") };
        let number = |field: &str| field.parse::<u16>().expect("a number");
        let octets = |field: &str| hex::read(field.as_bytes()).expect("hex");
        let read = Case {
            asked: octets(asked),
            question: (number(qtype), number(qclass)),
            name: octets(name),
            record: (number(rtype), number(class)),
        };
        assert_eq!((&read, answer), (&case, case.answer().to_string().as_str()));
    }
}

#[test]
fn the_command_pushes_writes_both_files() {
    let file = |end: &str| std::env::temp_dir().join(format!("reference-{}-{end}", std::process::id()));
    let (input, output) = (file("in"), file("out"));
    let (input_text, output_text) = (input.to_str().expect("text"), output.to_str().expect("text"));
    assert!(command(&["pushes", "--seed", "7", "--in", input_text, "--out", output_text]).status.success());
    let bench = push_cases::cases(7);
    assert_eq!(std::fs::read_to_string(&input).expect("written"), bench.input);
    assert_eq!(std::fs::read_to_string(&output).expect("written"), bench.output);
    std::fs::remove_file(input).expect("removed");
    std::fs::remove_file(output).expect("removed");
}

#[test]
fn bad_arguments_print_the_usage_line() {
    for arguments in [
        &["matches"][..],
        &["matches", "--seed", "1"],
        &["matches", "--seed", "1", "--count", "x"],
        &["matches", "--seed", "1", "--lines", "2"],
        &["pushes", "--seed", "1"],
        &["pushes", "--seed", "1", "--in", "/nowhere/x"],
        &["pushes", "--seed", "-1", "--in", "/nowhere/x", "--out", "/nowhere/y"],
    ] {
        let output = command(arguments);
        assert_eq!(output.status.code(), Some(2), "{arguments:?}");
        assert!(String::from_utf8(output.stderr).expect("text").starts_with("usage: reference "), "{arguments:?}");
        assert!(output.stdout.is_empty());
    }
}
