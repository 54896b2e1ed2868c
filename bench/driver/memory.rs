//! What `malloc` does with freed memory, and the growth of a process's memory by one binding.

use crate::inputs::{Binding, all_names, one_row_binding, rows_binding};
use crate::report::Report;
use crate::sides::answered_once;
use std::process::Command;

const PROCESSES: usize = 11;

unsafe extern "C" {
    fn mallopt(option: i32, value: i32) -> i32;
}

const M_TRIM_THRESHOLD: i32 = -1;
const M_MMAP_THRESHOLD: i32 = -3;

fn set(option: i32, value: i32) {
    // SAFETY: both options may be set at any time.
    assert_eq!(unsafe { mallopt(option, value) }, 1, "malloc of the GNU C library");
}

/// From now on freed memory stays with the process.
pub fn keep_freed() {
    set(M_MMAP_THRESHOLD, 32 << 20);
    set(M_TRIM_THRESHOLD, i32::MAX);
}

/// From now on large blocks that are freed go back to the kernel at once, so that each call asks
/// for their pages again. These are the sizes that `malloc` begins with.
pub fn give_back_freed() {
    set(M_MMAP_THRESHOLD, 128 << 10);
    set(M_TRIM_THRESHOLD, 128 << 10);
}

/// A line of /proc/self/status, in bytes.
fn status(field: &str) -> usize {
    let status = std::fs::read_to_string("/proc/self/status").expect("Linux");
    let line = status.lines().find(|line| line.starts_with(field)).expect(field);
    let kilobytes = line.split_whitespace().nth(1).expect("a number");
    1024 * kilobytes.parse::<usize>().expect("a number")
}

/// By how many bytes the peak is above what the process held before the call.
pub fn growth(side: &str, call: &str) -> usize {
    // The first call brings in the code.
    drop(answered_once(side, call, &one_row_binding()));
    let binding = binding_of(call);
    let before = status("VmRSS:");
    // The text is still held where the peak is read: the kernel's count of a peak that is over is
    // rough.
    let text = answered_once(side, call, &binding);
    let peak = status("VmHWM:");
    drop(text);
    peak.saturating_sub(before)
}

/// What is measured of a call.
fn binding_of(call: &str) -> Binding {
    if call == "names" { all_names() } else { rows_binding() }
}

/// The median of several processes, over the query's length.
fn ratio(side: &str, call: &str) -> String {
    let program = std::env::current_exe().expect("the path of this program");
    let mut growths: Vec<usize> = (0..PROCESSES)
        .map(|_| {
            let output =
                Command::new(&program).args(["peak", side, call]).output().expect("a process");
            assert!(output.status.success());
            String::from_utf8_lossy(&output.stdout).trim().parse().expect("a number")
        })
        .collect();
    growths.sort_unstable();
    format!("{:.2}", growths[PROCESSES / 2] as f64 / binding_of(call).query.len() as f64)
}

pub fn measure(report: &mut Report) {
    let head = ["Peak memory over the query", "archive", "table", "16 bytes"];
    report.head(&head);
    let sides = ["archive", "table", "wide"];
    report.row("`bind`, rows of names", &sides.map(|side| ratio(side, "bind")));
    report.row("the same by a template", &sides.map(|side| ratio(side, "template")));
    report.row("`names`, 8 MiB of `:a `", &sides.map(|side| ratio(side, "names")));
}
