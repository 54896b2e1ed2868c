//! Calls that are compared, and the smallest on which the sides differ.

use crate::compared_sides::{Answer, Asked, Mode, Side, sides};
use plain::all_fragments::FAULTS;
use plain::room::{FAULT, NUMBERS};
use std::process::ExitCode;

/// A byte of the room that no call has written.
const UNWRITTEN: u8 = 0xA5;
/// Bytes after the room, which are not lent.
const MARGIN: usize = 16;
/// No call has more sides.
const MOST_SIDES: usize = 5;

const ASKED: [Asked; 6] = [
    Asked::Names,
    Asked::Bind,
    Asked::Rows,
    Asked::Fragments,
    Asked::Guarded,
    Asked::GuardedFragments,
];

/// The numbers that a call has to answer with in a run: all of its own, except OUT_OF_MEMORY.
fn wanted(asked: Asked) -> Vec<usize> {
    let up_to = |last: usize| [0].into_iter().chain(2..=last);
    match asked {
        Asked::Names => vec![0, 2, 8],
        Asked::Bind => up_to(16).chain([18]).collect(),
        Asked::Rows => up_to(14).collect(),
        Asked::Fragments | Asked::GuardedFragments => up_to(17).chain([19, 21]).collect(),
        Asked::Guarded => up_to(16).collect(),
    }
}

/// A call.
#[derive(Clone)]
struct Call {
    asked: Asked,
    mode: Mode,
    query: Vec<u8>,
    /// The forms of the rows, if it is one of rows; nothing for names.
    form: Vec<u8>,
    room: usize,
}

#[derive(Default)]
pub struct Differences {
    pub calls: u64,
    /// How often plain Rust answered each call with each number.
    answers: [[u64; NUMBERS.len()]; ASKED.len()],
    /// How often it answered with each fault.
    faults: [u64; FAULTS.len()],
    differences: u64,
    smallest: Option<Call>,
    rooms: [Vec<u8>; MOST_SIDES],
}

impl Differences {
    /// Compares a call in a room of so many bytes.
    pub fn compare(&mut self, asked: Asked, mode: Mode, query: &[u8], form: &[u8], room: usize) {
        let answers = self.answers(asked, mode, query, form, room);
        self.calls += 1;
        let (number, _, report) = answers[1];
        self.answers[asked as usize][number as usize] += 1;
        if number == FAULT {
            self.faults[report.byte - 1] += 1;
        }
        if !self.differ(&answers) {
            return;
        }
        self.differences += 1;
        let size = |call: &Call| call.query.len() + call.form.len();
        let call = Call { asked, mode, query: query.to_vec(), form: form.to_vec(), room };
        if self.smallest.as_ref().is_none_or(|smallest| size(&call) < size(smallest)) {
            self.smallest = Some(call);
        }
    }

    /// The answer of each side, with its room in `rooms`.
    fn answers(
        &mut self,
        asked: Asked,
        mode: Mode,
        query: &[u8],
        form: &[u8],
        room: usize,
    ) -> Vec<Answer> {
        let answer = |((_, call), lent): (&Side, &mut Vec<u8>)| {
            lent.clear();
            lent.resize(room + MARGIN, UNWRITTEN);
            call(query, form, &mut lent[..room])
        };
        sides(asked, mode).iter().zip(&mut self.rooms).map(answer).collect()
    }

    fn answers_of(&mut self, call: &Call) -> Vec<Answer> {
        self.answers(call.asked, call.mode, &call.query, &call.form, call.room)
    }

    fn differ(&self, answers: &[Answer]) -> bool {
        (0..answers.len())
            .any(|side| answers[side] != answers[1] || self.rooms[side] != self.rooms[1])
    }

    /// Prints the counts and the smallest difference. It fails if there is one, and if a call never
    /// answered with one of its numbers, or with some fault.
    pub fn print(mut self) -> ExitCode {
        let mut is_each_answered = true;
        for asked in ASKED {
            let answers = &self.answers[asked as usize];
            let counts = NUMBERS.iter().zip(answers).filter(|(_, count)| **count > 0);
            println!("{asked:?}: {}", told(counts));
            is_each_answered &= wanted(asked).into_iter().all(|number| answers[number] > 0);
        }
        println!("Faults: {}", told(FAULTS.iter().zip(&self.faults)));
        is_each_answered &= !self.faults.contains(&0);
        println!("{} calls compared, {} differences", self.calls, self.differences);
        if let Some(call) = self.smallest.take() {
            let call = self.shortened(call);
            self.print_call(&call);
            return ExitCode::FAILURE;
        }
        if !is_each_answered {
            println!("A number was never answered: give more random bindings");
            return ExitCode::FAILURE;
        }
        ExitCode::SUCCESS
    }

    /// Prints a call with the answers of all sides.
    fn print_call(&mut self, call: &Call) {
        println!(
            "The smallest, {:?}, {:?}: query \"{}\", room of {}",
            call.asked,
            call.mode,
            call.query.escape_ascii(),
            call.room
        );
        println!("form, in hexadecimal: {}", hexadecimal(&call.form));
        let answers = self.answers_of(call);
        let sides = sides(call.asked, call.mode);
        for (((side, _), (number, rows, report)), room) in
            sides.iter().zip(answers).zip(&self.rooms)
        {
            let written = room.iter().rposition(|byte| *byte != UNWRITTEN).map_or(0, |at| at + 1);
            println!("{side}: {number}, {report:?}, {rows:?}");
            println!("  room: \"{}\"", room[..written].escape_ascii());
        }
    }

    /// The call without bytes of query and form that the difference doesn't need.
    fn shortened(&mut self, mut call: Call) -> Call {
        let query_len = call.query.len();
        for at in (0..query_len + call.form.len()).rev() {
            let mut shorter = call.clone();
            if at >= query_len {
                shorter.form.remove(at - query_len);
            } else {
                shorter.query.remove(at);
            }
            let answers = self.answers_of(&shorter);
            if self.differ(&answers) {
                call = shorter;
            }
        }
        call
    }
}

/// Names with their counts.
fn told<'a>(counts: impl Iterator<Item = (&'a &'static str, &'a u64)>) -> String {
    counts.map(|(name, count)| format!("{name} {count}")).collect::<Vec<_>>().join(", ")
}

fn hexadecimal(bytes: &[u8]) -> String {
    bytes.iter().map(|byte| format!("{byte:02X}")).collect::<Vec<_>>().join(" ")
}
