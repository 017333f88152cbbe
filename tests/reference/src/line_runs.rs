//! Random runs for the comparison: lines, and what each must print, made in one pass.

use crate::call::Call;
use crate::craft;
use crate::generate::Generator;
use crate::player::{Language, Player};
use crate::random::Random;
use crate::replay::{read_line, write_line};
use crate::script::{next_line, BEGINNINGS};
use crate::server::OUTPUT;
use crate::tally::Tally;
use crate::{heavy, hex, selftest};

/// Lines without their LF, for each the lines that it prints, and what they came to.
pub struct Run {
    pub lines: Vec<Vec<u8>>,
    pub expected: Vec<String>,
    pub tally: Tally,
    /// Whether the last line has its LF.
    pub ended: bool,
}

impl Run {
    /// The lines with what this server says to them.
    pub fn of(language: Language, lines: Vec<Vec<u8>>, ended: bool) -> Run {
        let mut player = Player::new(language);
        let expected = lines.iter().map(|line| player.step(line)).collect();
        // An empty line is one by its LF alone.
        let ended = ended || lines.last().is_some_and(Vec::is_empty);
        Run { lines, expected, tally: player.tally, ended }
    }

    /// A random run of so many lines.
    pub fn random(language: Language, seed: u64, length: usize) -> Run {
        let mut player = Player::new(language);
        let mut generator = Generator::new(seed, &player.server.zone);
        let (mut lines, mut expected, mut steps) = (Vec::new(), Vec::new(), Vec::new());
        for number in 0..length {
            let line = match (number, language) {
                (0, Language::Service) => start(&mut generator, seed),
                (0, _) | (1, Language::Service) => open(&mut generator.random),
                _ => later(language, &mut generator, &player, &mut steps, length - number),
            };
            expected.push(player.step(&line));
            lines.push(line);
        }
        Run { lines, expected, tally: player.tally, ended: seed % 2 == 0 }
    }

    pub fn text(&self) -> Vec<u8> {
        let mut text: Vec<u8> = self.lines.iter().flat_map(|line| [&line[..], b"\n"]).flatten().copied().collect();
        if !self.ended {
            text.pop();
        }
        text
    }
}

fn open(random: &mut Random) -> Vec<u8> {
    format!("open\t{}", random.pick(&BEGINNINGS)).into_bytes()
}

/// The start of a server for the zone that the rest of the run is about.
fn start(generator: &mut Generator, seed: u64) -> Vec<u8> {
    let zone = selftest::zone_of(seed);
    *generator = Generator::new(seed, &zone);
    start_line(&zone)
}

fn start_line(zone: &[u8]) -> Vec<u8> {
    format!("start\t{}", hex::write(zone)).into_bytes()
}

/// A line after the first, given the steps that are under way and how many lines are left.
fn later(
    language: Language,
    generator: &mut Generator,
    player: &Player,
    steps: &mut Vec<heavy::Step>,
    left: usize,
) -> Vec<u8> {
    if steps.is_empty() && generator.random.once_in(300) {
        steps.extend(heavy::STEPS);
    }
    if let Some(step) = steps.pop() {
        return heavy::line(step, &player.server, &mut generator.random);
    }
    if language == Language::Service && generator.random.once_in(60) {
        return beyond(generator, player);
    }
    let line = next_line(generator, &player.server, left);
    match generator.random.below(24) {
        0 | 1 => changed(line, &mut generator.random, lengthen),
        2 => changed(line, &mut generator.random, set_flags),
        _ => line,
    }
}

/// The line of a message with something done to its bytes; other lines as they are.
fn changed(line: Vec<u8>, random: &mut Random, change: impl Fn(&mut Vec<u8>, &mut Random)) -> Vec<u8> {
    let Some(Call::Message { time, session, mut bytes }) = read_line(&line) else {
        return line;
    };
    change(&mut bytes, random);
    write_line(&Call::Message { time, session, bytes }).into_bytes()
}

/// One more TLV, whole or not, of a type that a first TLV may have or of another.
fn lengthen(bytes: &mut Vec<u8>, random: &mut Random) {
    let data = vec![random.byte(); random.below(12)];
    bytes.extend(craft::tlv(*random.pick(&[0, 1, 2, 3, 0x40, 0x41, 0x42, 0x43, 0xf800]), &data));
    if random.once_in(4) {
        bytes.truncate(bytes.len() - random.below(5));
    }
}

/// Other flags: any, those of a request with Z and RCODE, or those of a response with any opcode.
fn set_flags(bytes: &mut Vec<u8>, random: &mut Random) {
    let any = random.number() as u16;
    let flags = *random.pick(&[any, craft::REQUEST | any & 0x07ff, any | 0x8000]);
    if let Some(place) = bytes.get_mut(2..4) {
        place.copy_from_slice(&flags.to_be_bytes());
    }
}

/// What only the C service can be asked.
fn beyond(generator: &mut Generator, player: &Player) -> Vec<u8> {
    match generator.random.below(8) {
        0..=2 => write_line(&generator.longest(&player.server)).into_bytes(),
        3 => start_line(&no_name(&player.server.zone, &mut generator.random)),
        4 => {
            let count = *generator.random.pick(&[0, 1, OUTPUT / 2, OUTPUT - 1]);
            format!("lend\t{count}").into_bytes()
        }
        _ => format!("lend\t{}", generator.random.pick(&[OUTPUT, OUTPUT, OUTPUT + 1, OUTPUT + 4096])).into_bytes(),
    }
}

/// Octets that are no whole name.
fn no_name(zone: &[u8], random: &mut Random) -> Vec<u8> {
    match random.below(4) {
        0 => Vec::new(),
        1 => zone[..zone.len() - 1].to_vec(),
        2 => [zone, &[0]].concat(),
        _ => craft::name(&[&[b'x'; 64]]),
    }
}
