//! The picture: rows of sixteen bytes in hex, under each the letters of their owners, and under
//! those the place of a refusal; then a line for each owner. Of a refused message the rows around
//! that place are shown.

use crate::pieces::{Look, Picture, Piece};
use std::ops::Range;

const ROW: usize = 16;
/// Rows in a row that belong to one owner and are shown at its begin and at its end.
const KEPT: usize = 2;
/// Rows that are shown on each side of a refusal's place.
const NEAR: usize = 8;

/// Letters by number: a to z, then aa, ab and so on, which two columns have room for; behind zz
/// they begin anew with aa.
fn letters(number: usize) -> String {
    let letter = |i: usize| (b'a' + (i % 26) as u8) as char;
    match number.checked_sub(26) {
        None => letter(number).to_string(),
        Some(rest) => format!("{}{}", letter(rest / 26), letter(rest)),
    }
}

fn colour(look: Look, number: usize) -> &'static str {
    match (look, number % 2) {
        (Look::Offset, _) => "\x1b[33m",
        (Look::Selector, _) => "\x1b[35m",
        (Look::Unread, _) => "\x1b[90m",
        (Look::Leaf, 0) => "\x1b[36m",
        (Look::Leaf, _) => "\x1b[32m",
    }
}

struct Ink {
    colours: bool,
}

impl Ink {
    fn paint(&self, code: &str, text: &str) -> String {
        if self.colours {
            format!("{code}{text}\x1b[0m")
        } else {
            text.to_string()
        }
    }
}

/// The number of the piece that each byte belongs to.
fn owner_of_each(length: usize, pieces: &[Piece]) -> Vec<usize> {
    let mut owner = vec![0; length];
    for (number, piece) in pieces.iter().enumerate() {
        owner[piece.bytes.clone()].fill(number);
    }
    owner
}

pub fn picture(message: &[u8], picture: &Picture, colours: bool) -> String {
    let ink = Ink { colours };
    let owner = owner_of_each(message.len(), &picture.pieces);
    let mark = picture.mark.clone();
    let marked = |at: usize| {
        mark.as_ref()
            .is_some_and(|mark| mark.contains(&at) || (mark.is_empty() && mark.start == at))
    };
    // A place behind the last byte may need a row of its own.
    let cells = message.len().max(mark.as_ref().map_or(0, |mark| mark.end.max(mark.start + 1)));
    let rows = cells.div_ceil(ROW);
    let row_cells = |row: usize| row * ROW..((row + 1) * ROW).min(cells);
    let dull = |row: usize| {
        let cells = row_cells(row);
        cells.end <= message.len()
            && cells.len() == ROW
            && owner[cells.start] == owner[cells.end - 1]
            && !cells.clone().any(&marked)
    };
    // Left out: dull rows with dull rows of the same owner on both sides of them.
    let hidden = |row: usize| {
        let near = row.saturating_sub(KEPT)..=row + KEPT;
        row >= KEPT
            && row + KEPT < rows
            && near.clone().all(dull)
            && near.clone().all(|other| owner[other * ROW] == owner[row * ROW])
    };
    let window = mark.as_ref().map_or(0..rows, |mark| {
        (mark.start / ROW).saturating_sub(NEAR)..(mark.start / ROW + NEAR + 1).min(rows)
    });
    let mut text = String::new();
    if window.start > 0 {
        text += &format!("        .. {} bytes ..\n", window.start * ROW);
    }
    let mut row = window.start;
    while row < window.end {
        if hidden(row) {
            let first = row;
            while row < window.end && hidden(row) {
                row += 1;
            }
            let name = letters(owner[first * ROW]);
            text += &format!("        .. {} bytes of {name} ..\n", (row - first) * ROW);
            continue;
        }
        text += &one_row(message, &picture.pieces, &owner, row_cells(row), &marked, &ink);
        row += 1;
    }
    if window.end < rows {
        text += &format!("        .. {} bytes ..\n", message.len() - window.end * ROW);
    }
    if !picture.pieces.is_empty() {
        text.push('\n');
    }
    // What has no bytes and stands behind the last row is shown with it.
    let end = if window.end < rows { window.end * ROW } else { usize::MAX };
    text + &lines(&picture.pieces, window.start * ROW..end, &ink)
}

/// A line for each piece that touches these bytes.
fn lines(pieces: &[Piece], near: Range<usize>, ink: &Ink) -> String {
    let shown = |bytes: &Range<usize>| {
        bytes.start < near.end && (bytes.end > near.start || bytes.start >= near.start)
    };
    let mut text = String::new();
    for (number, piece) in pieces.iter().enumerate().filter(|(_, piece)| shown(&piece.bytes)) {
        let name = format!("{:<3}", letters(number));
        let name = ink.paint(colour(piece.look, number), &name);
        let Piece { bytes, path, text: told, .. } = piece;
        text += &format!("  {name}{:>6} to {:<6} {path}: {told}\n", bytes.start, bytes.end);
    }
    text
}

fn one_row(
    message: &[u8],
    pieces: &[Piece],
    owner: &[usize],
    cells: Range<usize>,
    marked: &dyn Fn(usize) -> bool,
    ink: &Ink,
) -> String {
    let (mut bytes, mut names, mut marks) = (String::new(), String::new(), String::new());
    for at in cells.clone() {
        if at >= message.len() {
            bytes += "   ";
            names += "   ";
            marks += if marked(at) { "^^ " } else { "   " };
            continue;
        }
        let piece = &pieces[owner[at]];
        let code = if marked(at) { "\x1b[41m" } else { colour(piece.look, owner[at]) };
        bytes += &ink.paint(code, &format!("{:02x}", message[at]));
        bytes.push(' ');
        let name = if piece.bytes.start == at || cells.start == at {
            format!("{:-<2}", letters(owner[at]))
        } else {
            "--".to_string()
        };
        let more = at + 1 < cells.end && piece.bytes.contains(&(at + 1));
        names += &ink.paint(
            colour(piece.look, owner[at]),
            &format!("{name}{}", if more { "-" } else { "" }),
        );
        if !more {
            names.push(' ');
        }
        marks += match (marked(at), marked(at) && at + 1 < cells.end && marked(at + 1)) {
            (true, true) => "^^^",
            (true, false) => "^^ ",
            _ => "   ",
        };
    }
    let mut text = format!("  {:04x}  {}\n", cells.start, bytes.trim_end());
    if !names.trim().is_empty() {
        text += &format!("        {}\n", names.trim_end());
    }
    if cells.clone().any(marked) {
        let mark = ink.paint("\x1b[31m", marks.trim_end());
        text += &format!("        {mark} here\n");
    }
    text
}

#[cfg(test)]
mod tests {
    use super::*;

    #[test]
    fn letters_in_two_columns() {
        let names: Vec<String> = [0, 25, 26, 51, 52, 701, 702].into_iter().map(letters).collect();
        assert_eq!(names, ["a", "z", "aa", "az", "ba", "zz", "aa"]);
    }
}
