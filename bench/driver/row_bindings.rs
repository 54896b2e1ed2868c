//! Random rows of one query, the same in each run.

use crate::bindings::{self, append_string, damage, room_for};
use crate::compared_sides::{Asked, IN_A_MODE};
use crate::differences::Differences;
use crate::random::Random;
use crate::wide_names::{self, WideNames};
use plain::search::Table;
use plain::{TABLE, rows};

/// How many rows a query is bound to at most.
const MOST_ROWS: usize = 5;
/// Room for the texts of most rows.
const ROOM: usize = 1 << 20;

/// Compares so many calls of rows, each in both modes, also by wide names.
pub fn compare(count: u64, differences: &mut Differences) {
    let mut random = Random(20_261_125);
    let mut room = vec![0; ROOM];
    for _ in 0..count {
        let query = bindings::query(&mut random);
        let forms = forms(&mut random, &query);
        let by_grammar = rows::bind_rows(&forms, &mut room, |params| (TABLE.bind)(&query, params));
        let by_wide_names = wide_names::bind_rows::<WideNames<Table>>(&query, &forms, &mut room);
        let len = by_grammar.1.written.max(by_wide_names.1.written);
        // The room often ends within a row.
        let len = if random.one_in(3) { random.below(len + 1) } else { len };
        let room = room_for(&mut random, len);
        for mode in IN_A_MODE {
            differences.compare(Asked::Rows, mode, &query, &forms, room);
        }
    }
}

/// The forms of rows, some cut off or changed, and then all of them so.
fn forms(random: &mut Random, query: &[u8]) -> Vec<u8> {
    let mut forms = Vec::new();
    for _ in 0..random.below(MOST_ROWS + 1) {
        let (form, _) = bindings::form(random, query);
        append_string(random, &mut forms, &form);
    }
    damage(random, &mut forms, &[0xFB, 0xFF, 0xFC, 0xFD, 0xFE, 0, 1]);
    forms
}
