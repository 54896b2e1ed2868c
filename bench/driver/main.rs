//! The bench: times the archive against plain Rust, and compares their answers.

mod anywhere_template;
mod archive;
mod archive_template;
mod bindings;
mod compare;
mod compared_sides;
mod differences;
mod fragment_bindings;
mod fragments;
mod growth;
mod inputs;
mod memory;
mod other_mode;
mod portable;
mod random;
mod readings;
mod report;
mod row_bindings;
mod rows;
mod sides;
mod time;
mod wide_names;

use crate::report::Report;
use crate::time::{Input, best_times};
use std::process::ExitCode;

const USAGE: &str = "\
time                    prints the ratios
time FILE DATE KIT      also writes them into the file
compare LONGEST COUNT   compares on all queries and values of up to LONGEST bytes, and on COUNT random
                        bindings, rows, fragments and queries
repeat SIDE CALL INPUT  does one call over and over, for two seconds
peak SIDE CALL          prints by how many bytes one call of `bind`, `template` or `names` grows the
                        process";

fn main() -> ExitCode {
    let words: Vec<String> = std::env::args().skip(1).collect();
    let words: Vec<&str> = words.iter().map(String::as_str).collect();
    match words[..] {
        ["time"] => {
            println!("{}", measured().text());
            return ExitCode::SUCCESS;
        }
        ["time", file, date, kit] => {
            let mut report = measured();
            report.source(date, kit);
            println!("{}", report.text());
            return report.write(file);
        }
        ["compare", longest, count] => {
            if let (Ok(longest @ 0..=8), Ok(count)) = (longest.parse(), count.parse()) {
                return compare::compare(longest, count);
            }
        }
        ["repeat", side, call, input] => return sides::repeat(side, call, input),
        ["peak", side, call] => {
            println!("{}", memory::growth(side, call));
            return ExitCode::SUCCESS;
        }
        _ => {}
    }
    eprintln!("{USAGE}");
    ExitCode::from(2)
}

fn measured() -> Report {
    let mut report = Report::new();
    memory::keep_freed();
    let (queries, bindings, rooms) = (inputs::queries(), inputs::bindings(), sides::rooms());
    let rows = inputs::rows_inputs();
    let fragments = fragments::inputs();
    let tables = [
        (&sides::PARSING[..], sides::parsing(&queries, &rooms)),
        (&sides::BINDING, sides::binding(&bindings, &rooms)),
        (&sides::ANYWHERE, sides::anywhere(&bindings, &rooms)),
        (&rows::ROWS, rows::rows(&rows, &rooms)),
        (&fragments::FRAGMENTS, fragments::fragments(&fragments, &rooms)),
        (&sides::BY_TEMPLATE, sides::by_template(&bindings, &rooms)),
    ];
    let inputs: Vec<&Input> = tables.iter().flat_map(|(_, inputs)| inputs).collect();
    let kept = best_times(&inputs);
    memory::give_back_freed();
    let given_back = best_times(&inputs);
    let mut times = kept.iter().zip(&given_back);
    for (head, inputs) in &tables {
        report.head(&[&head[..inputs[0].sides.len()], &[GIVEN_BACK]].concat());
        for (input, (kept, given_back)) in inputs.iter().zip(&mut times) {
            report.ratios(input, kept, given_back);
        }
    }
    growth::measure(&mut report);
    memory::measure(&mut report);
    report
}

/// The head of the last column.
const GIVEN_BACK: &str = "table, given back";
