//! The tables of ratios, and their place in a document.

use crate::time::Input;
use std::process::ExitCode;

const BEGIN: &str = "<!-- bench/ratios writes from here -->";
const END: &str = "<!-- to here -->";

pub struct Report {
    source: String,
    load: String,
    tables: String,
}

/// The mean count of running processes in the last minute.
fn load() -> String {
    let text = std::fs::read_to_string("/proc/loadavg").unwrap_or_default();
    text.split(' ').next().unwrap_or("unknown").to_owned()
}

/// The processor's name, and how many there are.
fn processor() -> String {
    let text = std::fs::read_to_string("/proc/cpuinfo").unwrap_or_default();
    let line = text.lines().find(|line| line.starts_with("model name"));
    let name = line.and_then(|line| line.split(": ").nth(1)).unwrap_or("unknown");
    let count = std::thread::available_parallelism().map_or(1, usize::from);
    format!("{count} x {name}")
}

/// A ratio. One of 10 or more is left out: the sides don't do the same, as where one only copies a short query.
fn told(ratio: f64) -> String {
    if ratio < 10.0 { format!("{ratio:.2}") } else { "-".to_owned() }
}

impl Report {
    pub fn new() -> Report {
        Report { source: String::new(), load: load(), tables: String::new() }
    }

    pub fn source(&mut self, date: &str, kit: &str) {
        self.source = format!("Taken on {date}, {kit}. ");
    }

    /// The head of the next table.
    pub fn head(&mut self, columns: &[&str]) {
        let rule = format!("|---{}|", "|---:".repeat(columns.len() - 1));
        self.tables += &format!("\n| {} |\n{rule}\n", columns.join(" | "));
    }

    /// The time of the first side over that of each other, and over that of the second if freed
    /// memory is given back.
    pub fn ratios(&mut self, input: &Input, kept: &[f64], given_back: &[f64]) {
        let mut cells: Vec<String> =
            kept[1..].iter().map(|time| told(kept[0] / time)).collect();
        if input.last_differs
            && let Some(last) = cells.last_mut()
        {
            last.push('*');
        }
        cells.push(format!("{:.2}", given_back[0] / given_back[1]));
        self.row(input.name, &cells);
    }

    pub fn row(&mut self, name: &str, cells: &[String]) {
        self.tables += &format!("| {name} | {} |\n", cells.join(" | "));
    }

    pub fn text(&self) -> String {
        let (source, before, after) = (&self.source, &self.load, load());
        let machine = format!("Processors: {}. Load: {before} before, {after} after.", processor());
        format!("{source}{machine}\n{}", self.tables)
    }

    /// Writes the text between the two lines that mark its place.
    pub fn write(&self, file: &str) -> ExitCode {
        let Ok(old) = std::fs::read_to_string(file) else {
            eprintln!("cannot read {file}");
            return ExitCode::from(2);
        };
        let places =
            old.split_once(BEGIN).and_then(|(start, rest)| Some((start, rest.split_once(END)?.1)));
        let Some((start, end)) = places else {
            eprintln!("{file} has no lines '{BEGIN}' and '{END}'");
            return ExitCode::FAILURE;
        };
        let new = format!("{start}{BEGIN}\n\n{}\n{END}{end}", self.text());
        match std::fs::write(file, new) {
            Ok(()) => ExitCode::SUCCESS,
            Err(error) => {
                eprintln!("cannot write {file}: {error}");
                ExitCode::from(2)
            }
        }
    }
}
