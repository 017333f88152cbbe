//! What a program printed for a run, read without asking any server.

use crate::pair::{lines, Asked, Step};

/// One printed line: verb, answer, session or -, and what follows.
#[derive(Clone, Debug, PartialEq, Eq)]
pub struct Printed {
    pub answer: u64,
    pub session: Option<u64>,
    /// The fourth field: bytes in hex, places, or -.
    pub value: String,
    /// The whole line, with its LF.
    pub line: String,
}

impl Printed {
    /// The line, if it has the verb.
    fn read(line: &str, verb: &str) -> Option<Printed> {
        let fields: Vec<&str> = line.strip_suffix('\n')?.split('\t').collect();
        let [found, answer, session, value, ..] = fields[..] else { return None };
        let session = match session {
            "-" => None,
            number => Some(number.parse().ok()?),
        };
        let answer = answer.parse().ok().filter(|_| found == verb)?;
        Some(Printed { answer, session, value: value.to_string(), line: line.to_string() })
    }
}

/// The printed lines of each step of a run; none for a step of the other run. Or what cannot be understood.
pub fn read(steps: &[Step], run: usize, output: &[u8]) -> Result<Vec<Vec<Printed>>, String> {
    let output = String::from_utf8_lossy(output);
    let mut rest = output.split_inclusive('\n').peekable();
    let mut printed = vec![Vec::new(); steps.len()];
    for (place, line) in lines(steps, run) {
        let asked = Asked::of(line);
        let mut own: Vec<Printed> = Vec::new();
        while own.is_empty() || asked.is_for_all() {
            let Some(next) = rest.peek().and_then(|line| Printed::read(line, asked.verb)) else { break };
            own.push(next);
            rest.next();
        }
        if !is_whole(&own) {
            let found = own.first().map_or(*rest.peek().unwrap_or(&"nothing more\n"), |first| &first.line);
            return Err(format!("to {} it printed {found}", String::from_utf8_lossy(line)));
        }
        if let Some(place) = place {
            printed[place] = own;
        }
    }
    match rest.next() {
        None => Ok(printed),
        Some(more) => Err(format!("behind its last line it printed {more}")),
    }
}

/// One line, or one for each of several sessions, upward.
fn is_whole(own: &[Printed]) -> bool {
    !own.is_empty() && own.windows(2).all(|two| two[0].session.is_some() && two[0].session < two[1].session)
}
