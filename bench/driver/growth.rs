//! How the time of binding grows with the query, and with names that were chosen to collide.

use crate::archive;
use crate::inputs::{self, Binding};
use crate::report::Report;
use crate::sides::{behind_calls, plain};
use crate::time::time_once;
use plain::TABLE;
use std::cell::RefCell;
use std::hint::black_box;

const MEGABYTES: [usize; 3] = [1, 10, 100];
const NAMES: [usize; 3] = [1_000, 10_000, 100_000];
/// The rest of a row isn't taken once one of its numbers is over this.
const TOO_SLOW: f64 = 100.0;
const ROUNDS: usize = 3;
/// Nanoseconds, after which a call is timed no more.
const ENOUGH: f64 = 1e9;

/// The time of a byte over that of a byte of the smallest query, and the time of a name over that
/// of a name among the fewest.
pub fn measure(report: &mut Report) {
    report.head(&["`bind`: time a byte over that at 1 MB", "10 MB", "100 MB"]);
    let rows = |size: usize| inputs::rows_of_names(size * 1_000_000);
    let one = |size: usize| inputs::insert_with_one_mark(size * 1_000_000);
    rows_of_both(report, "rows of names", MEGABYTES, rows);
    rows_of_both(report, "one mark", MEGABYTES, one);
    report.head(&["`bind`: time a name over that of 1000 names", "10000", "100000"]);
    rows_of_both(report, "names", NAMES, inputs::many_names);
    rows_of_both(report, "colliding names", NAMES, inputs::colliding_names);
}

fn rows_of_both(
    report: &mut Report,
    name: &str,
    sizes: [usize; 3],
    input: impl Fn(usize) -> Binding,
) {
    let archive =
        |binding: &Binding, room: &RefCell<Vec<u8>>| behind_calls(archive::bind, binding, room);
    let table = |binding: &Binding, _: &RefCell<Vec<u8>>| black_box(plain(TABLE, binding)).len();
    report.row(&format!("{name}, archive"), &cells(sizes, &input, archive));
    report.row(&format!("{name}, table"), &cells(sizes, &input, table));
}

/// The time of one piece of each size over that of the smallest, from the second on.
fn cells(
    sizes: [usize; 3],
    input: impl Fn(usize) -> Binding,
    side: impl Fn(&Binding, &RefCell<Vec<u8>>) -> usize,
) -> Vec<String> {
    let mut times = Vec::new();
    for size in sizes {
        if times.last().is_some_and(|last| last / times[0] > TOO_SLOW) {
            break;
        }
        let binding = input(size);
        let room = RefCell::new(vec![0; 2 * binding.query.len() + 1024]);
        let mut best = f64::MAX;
        for _ in 0..ROUNDS {
            best = best.min(time_once(|| side(&binding, &room)));
            if best > ENOUGH {
                break;
            }
        }
        times.push(best / size as f64);
    }
    let cell =
        |at: usize| times.get(at).map_or("-".into(), |time| format!("{:.2}", time / times[0]));
    vec![cell(1), cell(2)]
}
