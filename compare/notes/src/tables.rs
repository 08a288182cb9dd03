//! The notes of docs/ENGINE.md, docs/RULES.md and docs/DIFFERENCES.md, with what their tables say of them.

use std::path::Path;

/// A name (0 data, 1 line ending, 2 link, 3 www, 4 protocol, 5 email, 6 mailto, 7 xmpp), the first index, the end.
pub type Span = (u64, usize, usize);

/// A row of a table: a note and what one of its columns says.
pub struct Row {
    pub file: &'static str,
    pub line: usize,
    pub note: Vec<u8>,
    /// The sets that it holds for: 0 the empty one, 1 the house set.
    pub sets: Vec<usize>,
    pub column: String,
    pub says: Vec<Span>,
    /// Steps in push and in end, where the table has them.
    pub steps: Option<(u64, u64)>,
}

const FILES: [&str; 3] = ["ENGINE.md", "RULES.md", "DIFFERENCES.md"];
/// Headings of the columns that hold a note.
const NOTE: [&str; 3] = ["note", "data", "input"];
/// Headings of the columns that hold spans, or a kind.
const SAYS: [&str; 9] = [
    "spans",
    "cut into",
    "split into",
    "spans when ended",
    "result",
    "ours",
    "the rust",
    "the rust (run)",
    "both (run)",
];

/// The bytes that a cell stands for: `code`, names of bytes, and pairs of hexadecimal digits.
fn bytes(cell: &str) -> Option<Vec<u8>> {
    if cell == "(empty)" {
        return Some(vec![]);
    }
    let mut note = vec![];
    for (i, part) in cell.split('`').enumerate() {
        if i % 2 == 1 {
            note.extend_from_slice(part.as_bytes());
            continue;
        }
        for word in part.split_whitespace() {
            note.push(match word {
                "SP" => b' ',
                "TAB" => b'\t',
                "CR" => b'\r',
                "LF" => b'\n',
                word if word.len() == 2 => u8::from_str_radix(word, 16).ok()?,
                _ => return None,
            });
        }
    }
    Some(note)
}

/// Spans such as `Www [0, 5), Data [5, 9)`; what follows a colon or a semicolon is a remark.
fn spans(cell: &str) -> Option<Vec<Span>> {
    let cell = cell.split([':', ';']).next().unwrap();
    if cell == "none" || cell == "nothing" {
        return Some(vec![]);
    }
    let mut spans = vec![];
    for part in cell.split_inclusive(')') {
        let (name, rest) = part.trim_start_matches(',').trim().split_once(" [")?;
        let name = ["Data", "LineEnding", "Link", "Www", "Protocol", "Email", "Mailto", "Xmpp"]
            .iter()
            .position(|n| *n == name)?;
        let (first, end) = rest.strip_suffix(')')?.split_once(", ")?;
        spans.push((name as u64, first.parse().ok()?, end.parse().ok()?));
    }
    Some(spans)
}

/// The rows of the three documents. A row that is not understood is told of.
pub fn rows(folder: &Path) -> (Vec<Row>, Vec<String>) {
    let (mut rows, mut passed_by): (Vec<Row>, Vec<String>) = (vec![], vec![]);
    for file in FILES {
        let text = std::fs::read_to_string(folder.join(file)).unwrap_or_else(|e| panic!("{}: {}", file, e));
        let mut heading: Option<Vec<String>> = None;
        for (i, line) in text.lines().enumerate() {
            if !line.starts_with("| ") {
                if !line.starts_with('|') {
                    heading = None;
                }
                continue;
            }
            let cells: Vec<&str> = line.trim_matches('|').split('|').map(str::trim).collect();
            let Some(columns) = &heading else {
                heading = Some(cells.iter().map(|c| c.to_lowercase()).collect());
                continue;
            };
            let of = |name: &str| columns.iter().position(|c| c == name).map(|k| cells[k]);
            let Some(cell) = NOTE.iter().find_map(|n| of(n)) else { continue };
            if !columns.iter().any(|c| SAYS.contains(&c.as_str())) {
                continue;
            }
            let (cell, sets) = match (cell.split_once(", "), of("set")) {
                (Some((cell, "the empty set")), _) => (cell, vec![0]),
                (Some((cell, _)), None) if !cell.is_empty() && bytes(cell).is_some() && bytes(cells[0]).is_none() => (cell, vec![1]),
                (_, Some("any")) => (cell, vec![0, 1]),
                (_, Some("empty")) => (cell, vec![0]),
                _ => (cell, vec![1]),
            };
            let note = if cell == "the same" {
                rows.last().map(|r| r.note.clone())
            } else {
                bytes(cell)
            };
            let number = |name| of(name).and_then(|c| c.parse().ok());
            let steps = number("steps in push").zip(number("steps in end"));
            for (column, says) in columns.iter().zip(&cells).filter(|(c, _)| SAYS.contains(&c.as_str())) {
                match (&note, spans(says)) {
                    (Some(note), Some(says)) => rows.push(Row {
                        file,
                        line: i + 1,
                        note: note.clone(),
                        sets: sets.clone(),
                        column: column.clone(),
                        says,
                        steps,
                    }),
                    _ => passed_by.push(format!("{}:{}: {} | {}", file, i + 1, cell, says)),
                }
            }
        }
    }
    (rows, passed_by)
}
