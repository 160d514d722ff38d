//! Reads a session's bytes from standard input and prints its chart; `chart --rows 25-48` prints that of some records.
//!
//! Why the run stopped is said on standard error. The exit status is 0 at the session's end, 1 where the run or a record is refused, 2 where
//! nothing could be read or written.

use std::env;
use std::io::{self, Read, Write};
use std::process::ExitCode;

use chart::{Chart, Rows};
use famdrize::SESSION_BYTES;

fn main() -> ExitCode {
    match draw() {
        Ok(true) => ExitCode::SUCCESS,
        Ok(false) => ExitCode::from(1),
        Err(told) => {
            eprintln!("chart: {told}");
            ExitCode::from(2)
        }
    }
}

/// Reads, draws and prints; whether the run came to the session's end.
fn draw() -> Result<bool, String> {
    let rows = rows()?;
    let mut session = Vec::new();
    // no more than show that it is too long
    let mut input = io::stdin().lock().take(SESSION_BYTES as u64 + 1);
    let read = input.read_to_end(&mut session);
    read.map_err(|error| format!("standard input could not be taken in: {error}"))?;
    let chart = Chart::of(&session);
    let picture = match rows {
        None => chart.draw(),
        Some(rows) => {
            let (first, last) = (*rows.start(), *rows.end());
            let picture = chart.draw_rows(rows);
            picture.ok_or_else(|| match chart.report().records {
                1 => format!("rows {first} to {last} are not there: the run took 1 record"),
                taken => {
                    format!("rows {first} to {last} are not there: the run took {taken} records")
                }
            })?
        }
    };
    let mut output = io::stdout().lock();
    let written = output.write_all(picture.as_bytes());
    let written = written.and_then(|()| output.flush());
    written.map_err(|error| format!("the chart could not be written: {error}"))?;
    eprintln!("chart: {}", chart.report());
    Ok(chart.is_whole())
}

/// The rows that are asked for; none for all.
fn rows() -> Result<Option<Rows>, String> {
    let usage = "usage: chart [--rows FIRST-LAST] < session";
    let arguments: Vec<String> = env::args().skip(1).collect();
    let text = match &arguments[..] {
        [] => return Ok(None),
        [option, text] if option == "--rows" => text,
        _ => return Err(usage.to_string()),
    };
    let ends = text.split_once('-');
    let ends = ends.and_then(|(first, last)| Some((first.parse().ok()?, last.parse().ok()?)));
    let (first, last) = ends.ok_or(usage)?;
    Ok(Some(first..=last))
}
