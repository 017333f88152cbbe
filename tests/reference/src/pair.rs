//! Two runs of lines that are to be held to each other: the lines that both have, and those of one alone.

/// Which of the two runs has a line.
#[derive(Clone, Copy, Debug, PartialEq, Eq)]
pub enum Runs {
    Both,
    First,
    Second,
}

impl Runs {
    /// The numbers of the runs that have it.
    pub fn each(self) -> &'static [usize] {
        match self {
            Runs::Both => &[0, 1],
            Runs::First => &[0],
            Runs::Second => &[1],
        }
    }
}

/// One line, without its LF. The runs are the steps in order, each with its own.
#[derive(Clone, Debug, PartialEq, Eq)]
pub struct Step {
    pub runs: Runs,
    pub line: Vec<u8>,
    /// Whether the line is the open of the session that is looked at.
    pub chosen: bool,
}

// A new call's verb goes into those of these lists that it belongs to.

/// Verbs of calls that name a session behind their time.
const OF_A_SESSION: [&str; 2] = ["close", "msg"];
/// Verbs of calls that print a line for each session that they concern.
const FOR_ALL: [&str; 2] = ["batch", "tick"];
/// Verbs of what a session's client sends: these the runs may have differently for other sessions.
const SENT: [&str; 1] = ["msg"];
/// Verbs of lines that are no calls on a started server, and have no time.
const NO_CALL: [&str; 2] = ["lend", "start"];
/// The verb that an unreadable line prints.
const UNREADABLE: &str = "?";

/// What a line asks, as far as the runs are held to each other by it.
#[derive(Clone, Debug, PartialEq, Eq)]
pub struct Asked<'a> {
    pub verb: &'a str,
    pub time: Option<u64>,
    pub session: Option<u64>,
}

impl Asked<'_> {
    pub fn of(line: &[u8]) -> Asked<'_> {
        let mut fields = line.split(|&byte| byte == b'\t').map(|field| std::str::from_utf8(field).unwrap_or(""));
        let verb = fields.next().filter(|verb| !verb.is_empty()).unwrap_or(UNREADABLE);
        let time = fields.next().filter(|_| !NO_CALL.contains(&verb)).and_then(|field| field.parse().ok());
        let session = fields.next().filter(|_| OF_A_SESSION.contains(&verb)).and_then(|field| field.parse().ok());
        Asked { verb, time, session }
    }

    pub fn is_sent(&self) -> bool {
        SENT.contains(&self.verb)
    }

    pub fn is_for_all(&self) -> bool {
        FOR_ALL.contains(&self.verb)
    }

    pub fn is_call(&self) -> bool {
        self.verb != UNREADABLE && !NO_CALL.contains(&self.verb)
    }
}

/// The lines of a run, each with its step. Nothing ends what a batch or a tick prints, so an unreadable line, which is
/// no step, stands between two of them.
pub fn lines(steps: &[Step], run: usize) -> Vec<(Option<usize>, &[u8])> {
    let mut lines: Vec<(Option<usize>, &[u8])> = Vec::new();
    for (place, step) in steps.iter().enumerate().filter(|(_, step)| step.runs.each().contains(&run)) {
        let asked = Asked::of(&step.line);
        if asked.is_for_all() && lines.last().is_some_and(|(_, before)| Asked::of(before).verb == asked.verb) {
            lines.push((None, b""));
        }
        lines.push((Some(place), &step.line));
    }
    lines
}

/// The input of a run.
pub fn text(steps: &[Step], run: usize) -> Vec<u8> {
    lines(steps, run).into_iter().flat_map(|(_, line)| [line, b"\n"]).flatten().copied().collect()
}
