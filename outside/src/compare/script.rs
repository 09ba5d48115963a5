//! Lines for the program `cases`, and what it must print for them by the second program.
use crate::run::Run;
use crate::second::buffered::{Walk, MOST_CAPACITY};
use crate::second::disks::Disks;
use crate::second::run::Ran;
use crate::second::sluices::Sluices;
use crate::second::survey::MOST_SLUICES;
use crate::second::Answer;

/// The most bytes that the program lends to a run, and what they hold at first.
pub const MOST_LENT: usize = 256;
const LENT: u8 = 9;

/// Lines without an outcome and the one with an outcome that follows them.
pub struct Record {
    pub expected: Vec<String>,
    /// Where in the input its case begins, and where its own lines end.
    case: usize,
    end: usize,
}

/// The input so far, what it must print, and the states that it leads to.
pub struct Script {
    input: String,
    records: Vec<Record>,
    pending: Vec<String>,
    case: usize,
    walk: Walk,
    disks: Disks,
}

impl Default for Script {
    fn default() -> Script {
        Script::new()
    }
}

impl Script {
    /// At first no survey is open.
    pub fn new() -> Script {
        Script {
            input: String::new(),
            records: vec![],
            pending: vec![],
            case: 0,
            walk: Walk::closed(),
            disks: Disks::closed(),
        }
    }

    pub fn input(&self) -> &str {
        &self.input
    }

    pub fn records(&self) -> &[Record] {
        &self.records
    }

    /// The input from the opening before a record to its end.
    pub fn case_of(&self, record: &Record) -> &str {
        &self.input[record.case..record.end]
    }

    /// A line that changes a state: it is printed as it is.
    fn silent(&mut self, line: String) {
        self.input += &format!("{line}\n");
        self.pending.push(line);
    }

    /// A line that is printed with its outcome.
    fn answered(&mut self, line: &str, outcome: &str) {
        self.input += &format!("{line}\n");
        self.pending.push(format!("{line}: {outcome}"));
        let expected = std::mem::take(&mut self.pending);
        self.records.push(Record {
            expected,
            case: self.case,
            end: self.input.len(),
        });
    }

    /// An opening that is refused leaves the state as it was.
    pub fn open_walk(&mut self, counts: &[u8], capacity: usize) {
        self.case = self.input.len();
        let line = format!("walk open {}, {capacity}", joined(counts));
        match Walk::open(counts, capacity) {
            Ok(walk) => {
                self.walk = walk;
                self.answered(&line, "open");
            }
            Err(number) => self.answered(&line, &format!("refused {number}")),
        }
    }

    /// A walk picked up, with its state. One that is refused leaves the state as it was, so that what led to it belongs to the
    /// case.
    pub fn resume_walk(&mut self, counts: &[u8], capacity: usize, setting: &[u8]) {
        let line = in_order(&format!("walk resume {}, {capacity},", joined(counts)), setting);
        let outcome = match Walk::resume(counts, capacity, setting) {
            Ok(walk) => {
                self.case = self.input.len();
                self.walk = walk;
                "open".into()
            }
            Err(number) => format!("refused {number}"),
        };
        self.answered(&line, &format!("{outcome}; {}", walk_text(&self.walk)));
    }

    pub fn open_disks(&mut self, counts: &[u8]) {
        self.case = self.input.len();
        let line = format!("disks open {}", joined(counts));
        match Disks::open(counts) {
            Ok(disks) => {
                self.disks = disks;
                self.answered(&line, "open");
            }
            Err(number) => self.answered(&line, &format!("refused {number}")),
        }
    }

    pub fn step_walk(&mut self) {
        let answer = answer_text(self.walk.step());
        self.answered("walk step", &format!("{answer}; {}", walk_text(&self.walk)));
    }

    pub fn step_disks(&mut self) {
        let answer = answer_text(self.disks.step());
        self.answered("disks step", &format!("{answer}; {}", disks_text(&self.disks)));
    }

    /// A run of at most t moves with so many bytes lent, 256 at the most.
    pub fn run_walk(&mut self, t: u64, lent: usize) {
        let ran = self.walk.run(t, lent);
        let outcome = format!("{}; {}", run_text(&ran, lent), walk_text(&self.walk));
        self.answered(&format!("walk run {t}, {lent}"), &outcome);
    }

    pub fn run_disks(&mut self, t: u64, lent: usize) {
        let ran = self.disks.run(t, lent);
        let outcome = format!("{}; {}", run_text(&ran, lent), disks_text(&self.disks));
        self.answered(&format!("disks run {t}, {lent}"), &outcome);
    }

    /// Lines that make the walk's state this one. Entries are always written: what lies past the end of a queue is nobody's.
    pub fn make_walk(&mut self, wanted: &Walk) {
        let now = std::mem::replace(&mut self.walk, wanted.clone());
        self.make_sluices("walk", &now.sluices, &wanted.sluices);
        self.change("walk capacity", now.capacity, wanted.capacity);
        self.change_all("walk counter", &now.counter, &wanted.counter);
        self.change("walk place", now.place, wanted.place);
        self.change("walk queued", now.queued, wanted.queued);
        for (number, entry) in (1..).zip(&wanted.entry[..wanted.queued.min(MOST_CAPACITY)]) {
            self.silent(format!("walk entry {number}, {entry}"));
        }
        self.change("walk steps", now.steps, wanted.steps);
        self.change("walk moves", now.moves, wanted.moves);
        self.change("walk ended", u8::from(now.ended), u8::from(wanted.ended));
    }

    /// Lines that make the disks' state this one.
    pub fn make_disks(&mut self, wanted: &Disks) {
        let now = std::mem::replace(&mut self.disks, wanted.clone());
        self.make_sluices("disks", &now.sluices, &wanted.sluices);
        self.change("disks turn", now.turn, wanted.turn);
        self.change_all("disks peg", &now.peg, &wanted.peg);
    }

    /// A step that is refused as n and the moving sluices are over 48: it prints all places of the arrays, also those that do
    /// not count and must be as they came.
    pub fn lay_open_walk(&mut self) {
        let mut walk = self.walk.clone();
        (walk.sluices.n, walk.sluices.moving) = (255, 255);
        self.make_walk(&walk);
        self.step_walk();
    }

    pub fn lay_open_disks(&mut self) {
        let mut disks = self.disks.clone();
        (disks.sluices.n, disks.sluices.moving) = (255, 255);
        self.make_disks(&disks);
        self.step_disks();
    }

    fn make_sluices(&mut self, engine: &str, now: &Sluices, wanted: &Sluices) {
        self.change(&format!("{engine} n"), now.n, wanted.n);
        self.change_all(&format!("{engine} radix"), &now.radix, &wanted.radix);
        self.change(&format!("{engine} moving"), now.moving, wanted.moving);
        self.change_all(&format!("{engine} number"), &now.number, &wanted.number);
        self.change_all(&format!("{engine} digit"), &now.digit, &wanted.digit);
        self.change_all(&format!("{engine} down"), &now.down.map(u8::from), &wanted.down.map(u8::from));
    }

    fn change<T: PartialEq + std::fmt::Display>(&mut self, field: &str, now: T, wanted: T) {
        if now != wanted {
            self.silent(format!("{field}, {wanted}"));
        }
    }

    fn change_all(&mut self, field: &str, now: &[u8], wanted: &[u8]) {
        for (number, (now, wanted)) in (1..).zip(now.iter().zip(wanted)) {
            self.change(&format!("{field} {number}"), now, wanted);
        }
    }
}

fn joined(bytes: &[u8]) -> String {
    bytes.iter().map(u8::to_string).collect::<Vec<String>>().join(" ")
}

fn answer_text(answer: Answer) -> String {
    match answer {
        Answer::Moved(change, notch) => {
            let direction = if change.down { "down" } else { "up" };
            format!("moved {} {direction} to {notch}", change.sluice)
        }
        Answer::End => "end".into(),
        Answer::Refused(number) => format!("refused {number}"),
    }
}

/// How a run came out, and all bytes that were lent to it: past its moves they are as they came.
fn run_text((run, moves): &Ran, lent: usize) -> String {
    let outcome = match run {
        Run::Made(moves) => format!("made {moves};"),
        Run::Ended(moves) => format!("ended {moves};"),
        Run::Stopped(moves, number) => format!("stopped {moves} {number};"),
        Run::Refused(number) => format!("refused {number};"),
    };
    let mut bytes = vec![LENT; lent];
    bytes[..moves.len()].copy_from_slice(moves);
    in_order(&outcome, &bytes)
}

/// A field's name and values, which stand sluice 1 first here and last there.
fn highest_first(name: &str, values: &[u8]) -> String {
    let reversed: Vec<u8> = values.iter().rev().copied().collect();
    in_order(name, &reversed)
}

fn in_order(name: &str, values: &[u8]) -> String {
    let values: String = values.iter().map(|value| format!(" {value}")).collect();
    format!("{name}{values}")
}

/// How many places of the arrays there are for the moving sluices, if there are as many as the state says.
fn moving_places(sluices: &Sluices) -> usize {
    sluices.moving.min(MOST_SLUICES)
}

/// As many places of the arrays as n says, if there are so many.
fn sluices_text(sluices: &Sluices) -> String {
    let n = sluices.n.min(MOST_SLUICES);
    [
        format!("n {}", sluices.n),
        highest_first("radix", &sluices.radix[..n]),
        format!("moving {}", sluices.moving),
        in_order("number", &sluices.number[..moving_places(sluices)]),
        highest_first("digit", &sluices.digit[..n]),
        highest_first("down", &sluices.down.map(u8::from)[..n]),
    ]
    .join("; ")
}

fn walk_text(walk: &Walk) -> String {
    [
        sluices_text(&walk.sluices),
        format!("capacity {}", walk.capacity),
        highest_first("counter", &walk.counter[..moving_places(&walk.sluices) + 1]),
        format!("place {}", walk.place),
        format!("queued {}", walk.queued),
        in_order("entry", &walk.entry[..walk.queued.min(MOST_CAPACITY)]),
        format!("steps {}", walk.steps),
        format!("moves {}", walk.moves),
        format!("ended {}", u8::from(walk.ended)),
    ]
    .join("; ")
}

fn disks_text(disks: &Disks) -> String {
    [
        sluices_text(&disks.sluices),
        format!("turn {}", disks.turn),
        highest_first("peg", &disks.peg[..moving_places(&disks.sluices)]),
    ]
    .join("; ")
}
