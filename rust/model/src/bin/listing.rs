//! The listing program: a session on standard input, its listing on standard output.

#![forbid(unsafe_code)]

use std::io::{self, Read, Write};

fn main() -> io::Result<()> {
    let mut session = Vec::new();
    io::stdin().lock().read_to_end(&mut session)?;
    let text = model::listing::listing(&session);
    io::stdout().lock().write_all(text.as_bytes())
}
