//! Random replay scripts: readable lines from random runs, and unreadable ones among them.

use crate::call::Call;
use crate::craft::{self, dotted};
use crate::generate::Generator;
use crate::random::Random;
use crate::replay::{read_line, write_line, MAX_LINE, ZONE};
use crate::server::Server;

/// Times at which a script may begin.
pub const BEGINNINGS: [u64; 6] = [0, 1_000, 1_000, 4_294_940_000, 1 << 63, u64::MAX - 20_000_000];

/// A script of so many lines; the last LF is missing for odd seeds.
pub fn script(seed: u64, lines: usize) -> Vec<u8> {
    let zone = dotted(ZONE);
    let mut server = Server::start(&zone).expect("the zone's name is a name");
    let mut generator = Generator::new(seed, &zone);
    let mut text = Vec::new();
    let mut line = format!("open\t{}", generator.random.pick(&BEGINNINGS)).into_bytes();
    for number in 0..lines {
        if number > 0 {
            text.push(b'\n');
            line = next_line(&mut generator, &server, lines - number);
        }
        text.extend_from_slice(&line);
        if let Some(call) = read_line(&line) {
            server.call(&call);
        }
    }
    let odd = seed % 2 == 1;
    if !odd {
        text.push(b'\n');
    }
    text
}

/// A line, given how many are left.
pub fn next_line(generator: &mut Generator, server: &Server, left: usize) -> Vec<u8> {
    if left == 6 {
        return format!("tick\t{}", u64::MAX - 1).into_bytes();
    }
    if left == 4 {
        return format!("open\t{}", u64::MAX).into_bytes();
    }
    if generator.random.once_in(400) {
        let over = generator.random.below(3);
        return long_line(server, MAX_LINE - 1 + over);
    }
    let line = write_line(&generator.next(server)).into_bytes();
    if left > 1 && generator.random.once_in(40) {
        spoiled(line, &mut generator.random)
    } else {
        line
    }
}

/// A message line of just so many bytes that is well formed but for its length.
pub fn long_line(server: &Server, length: usize) -> Vec<u8> {
    let head = |session: u64| write_line(&Call::Message { time: server.latest, session, bytes: Vec::new() }).len();
    let session = if (length - head(0)) % 2 == 1 { 10 } else { 0 };
    let room = (length - head(session)) / 2;
    let bytes = craft::message(5, craft::REQUEST, &craft::tlv(0x30, &vec![0xa5; room - 16]));
    write_line(&Call::Message { time: server.latest, session, bytes }).into_bytes()
}

/// A line that was readable, with something done to it that mostly makes it unreadable.
pub fn spoiled(mut line: Vec<u8>, random: &mut Random) -> Vec<u8> {
    let at = random.below(line.len());
    match random.below(14) {
        0 => line.push(b'\t'),
        1 => line.push(b'\r'),
        2 => line.make_ascii_uppercase(),
        3 => line.push(b'a'),
        4 => line.insert(0, b' '),
        5 => line.clear(),
        6 => line[at] = random.byte(),
        7 => line.truncate(at),
        8 => line = replace_time(&line, "18446744073709551616"),
        9 => line = replace_time(&line, "007"),
        10 => line = replace_time(&line, ""),
        11 => line = replace_time(&line, "+1"),
        12 => line = replace_time(&line, "99999999999999999999999"),
        _ => line.insert(at, *random.pick(b"\t g0-")),
    }
    line.retain(|byte| *byte != b'\n');
    line
}

fn replace_time(line: &[u8], time: &str) -> Vec<u8> {
    let mut fields: Vec<&[u8]> = line.split(|byte| *byte == b'\t').collect();
    if fields.len() > 1 {
        fields[1] = time.as_bytes();
    }
    fields.join(&b'\t')
}
