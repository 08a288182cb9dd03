//! Web spans and the cut of a note (RULES.md, sections 2, 9 and 10).

use crate::characters::{kind, Kind};
use crate::{Span, Way, DATA, LINE_ENDING, PROTOCOL, WWW};

type Set<'a> = &'a [(u32, u32)];

/// How a run of items from a place ends.
#[derive(PartialEq)]
enum Run {
    Stop,
    NoStop,
    /// At a `)` that is no item, because a parenthesis is open.
    Open,
}

/// Reads items from `i` on. `open`: a parenthesis is open.
fn run(note: &[u8], mut i: usize, set: Set, open: bool) -> Run {
    let mut bracket = false;
    loop {
        match note.get(i) {
            Some(b'(' | b'[') if bracket => return Run::Stop,
            Some(b')') if open => return Run::Open,
            Some(b']') => (i, bracket) = (i + 1, true),
            Some(b'!' | b'"' | b'\'' | b')' | b'*' | b',' | b'.' | b':' | b';' | b'?' | b'_' | b'~') => (i, bracket) = (i + 1, false),
            Some(b'&') => {
                let letters = note[i + 1..].iter().take_while(|b| b.is_ascii_alphabetic()).count();
                if letters == 0 || note.get(i + 1 + letters) != Some(&b';') {
                    return Run::NoStop;
                }
                (i, bracket) = (i + letters + 2, false);
            }
            Some(b'<') => return Run::Stop,
            _ if kind(note, i, set) == Kind::WhiteSpace => return Run::Stop,
            _ => return Run::NoStop,
        }
    }
}

fn inner(byte: u8) -> bool {
    matches!(byte, b'.' | b'_' | b'-' | 0x80..=0xBF)
}

fn domain_end(note: &[u8], d: usize, set: Set) -> usize {
    (d..note.len())
        .find(|&e| match note[e] {
            b'.' | b'_' => run(note, e, set, false) == Run::Stop,
            byte => !inner(byte) && kind(note, e, set) != Kind::Other,
        })
        .unwrap_or(note.len())
}

fn valid(domain: &[u8]) -> bool {
    domain.iter().any(|b| !inner(*b)) && domain.rsplit(|b| *b == b'.').take(2).all(|part| !part.contains(&b'_'))
}

/// The end of the path from `e`, and whether a `)` was met while a parenthesis was open.
fn path_end(note: &[u8], e: usize, set: Set, way: Way) -> (usize, bool) {
    let (mut opened, mut closed, mut met) = (0, 0, false);
    for p in e..note.len() {
        let open = closed < opened;
        match note[p] {
            b'!' | b'"' | b'&' | b'\'' | b')' | b'*' | b',' | b'.' | b':' | b';' | b'<' | b'?' | b']' | b'_' | b'~' => {
                let ours = run(note, p, set, open);
                met |= ours == Run::Open;
                let ends = if way.open_parenthesis {
                    run(note, p, set, false) == Run::Stop && !(open && note[p] == b')')
                } else {
                    ours == Run::Stop
                };
                if ends {
                    return (p, met);
                }
                closed += usize::from(note[p] == b')');
            }
            // A byte 80–BF that begins no character counts as U+FFFD, which is no white space.
            0x80..=0xBF => {}
            b'(' => opened += 1,
            _ if kind(note, p, set) == Kind::WhiteSpace => return (p, met),
            _ => {}
        }
    }
    (note.len(), met)
}

fn begins_with(note: &[u8], i: usize, what: &[u8]) -> bool {
    note[i..].len() >= what.len() && note[i..i + what.len()].eq_ignore_ascii_case(what)
}

/// What begins at `i`: its name and where its domain begins.
fn beginning(note: &[u8], i: usize) -> Option<(u64, usize)> {
    let before = if i == 0 { None } else { Some(note[i - 1]) };
    let www = matches!(
        before,
        None | Some(b'\t' | b'\n' | b'\r' | b' ' | b'(' | b'*' | b'_' | b'[' | b']' | b'~')
    ) && begins_with(note, i, b"www.")
        && i + 4 < note.len();
    let letter = before.map_or(false, |b| b.is_ascii_alphabetic());
    if www {
        Some((WWW, i))
    } else if !letter && begins_with(note, i, b"http://") {
        Some((PROTOCOL, i + 7))
    } else if !letter && begins_with(note, i, b"https://") {
        Some((PROTOCOL, i + 8))
    } else {
        None
    }
}

/// The web spans of a note, and whether a `)` was met while a parenthesis was open in one of their paths.
pub fn spans(note: &[u8], set: Set, way: Way) -> (Vec<Span>, bool) {
    let (mut spans, mut met, mut i) = (vec![], false, 0);
    while i < note.len() {
        let next = beginning(note, i).and_then(|(name, d)| {
            let e = domain_end(note, d, set);
            if !valid(&note[d..e]) {
                return None;
            }
            let (p, m) = path_end(note, e, set, way);
            met |= m;
            spans.push((name, i, p));
            Some(p)
        });
        i = next.unwrap_or(i + 1);
    }
    (spans, met)
}

/// The note cut into line endings, web spans and longest runs of data.
pub fn cut(note: &[u8], web: &[Span]) -> Vec<Span> {
    let (mut cut, mut i): (Vec<Span>, usize) = (vec![], 0);
    while i < note.len() {
        let span = match (web.iter().find(|w| w.1 == i), note[i]) {
            (Some(web), _) => *web,
            (None, b'\r') if note.get(i + 1) == Some(&b'\n') => (LINE_ENDING, i, i + 2),
            (None, b'\r' | b'\n') => (LINE_ENDING, i, i + 1),
            _ => (DATA, i, i + 1),
        };
        i = span.2;
        match cut.last_mut() {
            Some(last) if last.0 == DATA && span.0 == DATA => last.2 = i,
            _ => cut.push(span),
        }
    }
    cut
}
