//! Plain Rust for what `mysql_bind rows --literals=plain --mode=backslash --csv` does: the places of the query are found
//! once, the first column is a number, and all others are texts.
use plain::search::Wide;
use plain::template::Template;
use plain::value::{Params, Value};
use std::collections::HashMap;
use std::io::Write;

/// The fields of each record (RFC 4180).
fn records(text: &[u8]) -> Vec<Vec<Vec<u8>>> {
    let (mut rows, mut row, mut field, mut quoted) = (Vec::new(), Vec::new(), Vec::new(), false);
    let mut at = 0;
    while at < text.len() {
        match text[at] {
            b'"' if quoted && text.get(at + 1) == Some(&b'"') => {
                field.push(b'"');
                at += 1;
            }
            b'"' => quoted = !quoted,
            b',' if !quoted => row.push(std::mem::take(&mut field)),
            b'\n' if !quoted => {
                row.push(std::mem::take(&mut field));
                rows.push(std::mem::take(&mut row));
            }
            byte => field.push(byte),
        }
        at += 1;
    }
    rows
}

fn main() {
    let words: Vec<String> = std::env::args().collect();
    let (query, table) = (std::fs::read(&words[1]).unwrap(), std::fs::read(&words[2]).unwrap());
    let template = Template::new::<Wide>(&query);
    let mut rows = records(&table).into_iter();
    let names = rows.next().unwrap();
    let mut script = Vec::new();
    for row in rows {
        let mut values = HashMap::new();
        for (number, (name, field)) in names.iter().zip(row).enumerate() {
            let value = if number == 0 {
                Value::Int(std::str::from_utf8(&field).unwrap().parse().unwrap())
            } else {
                Value::Bytes(field)
            };
            values.insert(name.clone(), value);
        }
        let text = template.bind::<Wide>(&Params::Named(values)).unwrap_or_else(|_| panic!("a row is refused"));
        script.extend_from_slice(&text);
        script.extend_from_slice(b"\n;\n");
    }
    std::io::stdout().write_all(&script).unwrap();
}
