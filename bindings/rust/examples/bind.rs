//! Binds the query of the repository's README, with a name that tries to leave its literal, and writes the text. A query
//! that servers read in different ways is refused.
use mysql_params::{Params, Value, bind, first_unportable};
use std::io::Write;
use std::process::ExitCode;

fn run() -> Result<(), Box<dyn std::error::Error>> {
    let query = b"SELECT * FROM t WHERE id = :id AND name = :name";
    if let Some(found) = first_unportable(query)? {
        return Err(found.into());
    }

    let name = "x' OR '1'='1";
    let pairs = [("id", Value::Int(42)), ("name", name.into())];
    let mut text = bind(query, &Params::Named(&pairs))?;
    text.push(b'\n');
    std::io::stdout().write_all(&text)?;
    Ok(())
}

fn main() -> ExitCode {
    match run() {
        Ok(()) => ExitCode::SUCCESS,
        Err(error) => {
            eprintln!("{error}");
            ExitCode::FAILURE
        }
    }
}
