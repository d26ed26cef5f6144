//! Shows a message byte by byte: whose bytes they are, or what is wrong with them, where, and how
//! to mend it.

mod input;
mod pieces;
mod render;
mod table;

use cartwhisker::{check_layout, listing, Layout};
use std::io::{self, IsTerminal, Write};
use std::process::ExitCode;

const USAGE: &str = "usage: explain LAYOUT [MESSAGE]
  LAYOUT    a file of little-endian words, or --words \"4 5 7 ..\"
  MESSAGE   a file, or --hex \"2a 00 ..\", or - for standard input
Without a message the layout alone is shown. Exit status: 0 accepted, 1 refused, 2 not asked.";

/// The whole picture, and whether there is no refusal in it.
pub fn explain(layout: &[u8], message: Option<&[u8]>, colours: bool) -> (String, bool) {
    if let Err(refusal) = check_layout(layout) {
        return (table::refused(layout, &refusal), false);
    }
    let layout = Layout::read(layout).expect("a table that was just checked");
    let Some(message) = message else {
        return (table::shown(&layout), true);
    };
    match listing(&layout.bytes(), message) {
        Ok(records) => {
            let head = format!("accepted: {} bytes, {} items\n", message.len(), records.len());
            let picture = pieces::of(&layout, message);
            (head + "\n" + &render::picture(message, &picture, colours), true)
        }
        Err(refusal) => {
            let picture = pieces::of(&layout, message);
            let mut text = format!("{refusal}\n\n");
            text += &render::picture(message, &picture, colours);
            for line in &picture.advice {
                text += &format!("\n{line}");
            }
            (text + if picture.advice.is_empty() { "" } else { "\n" }, false)
        }
    }
}

fn main() -> ExitCode {
    let arguments: Vec<String> = std::env::args().skip(1).collect();
    let asked = match input::parse(&arguments) {
        Ok(asked) => asked,
        Err(message) => {
            eprintln!("explain: {message}\n{USAGE}");
            return ExitCode::from(2);
        }
    };
    let colours = io::stdout().is_terminal() && std::env::var_os("NO_COLOR").is_none();
    let (text, fine) = explain(&asked.layout, asked.message.as_deref(), colours);
    // A reader that has seen enough, as `head`, is no error.
    let _ = io::stdout().write_all(text.as_bytes());
    ExitCode::from(u8::from(!fine))
}

#[cfg(test)]
mod tests;
