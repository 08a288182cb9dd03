//! A third opinion: docs/RULES.md and docs/ENGINE.md, written down once more in plain Rust.
//!
//! Each of the three places of docs/DIFFERENCES.md can be read in our way or in the published way. With all three
//! read in the published way, this module has to give the published answers on every note, so a named difference
//! is no hole in the comparison.

pub mod characters;
pub mod edits;
pub mod machine;
pub mod mail;
pub mod web;

/// Which of the three places of docs/DIFFERENCES.md are read in the published way; the others are read in ours.
#[derive(Clone, Copy, Debug, PartialEq, Eq)]
pub struct Way {
    /// Place 1: a `)` while a parenthesis is open is an item of a trail.
    pub open_parenthesis: bool,
    /// Place 2: a mail domain may begin with a dot.
    pub dot_first: bool,
    /// Place 3: a `/` of an Xmpp is part of its domain, and no `@` after it.
    pub resource: bool,
}

impl Way {
    pub const OURS: Way = Way::of(false, false, false);
    pub const PUBLISHED: Way = Way::of(true, true, true);
    /// All ways, those with fewer places in the published way first.
    pub const ALL: [Way; 8] = [
        Way::OURS,
        Way::of(true, false, false),
        Way::of(false, true, false),
        Way::of(false, false, true),
        Way::of(true, true, false),
        Way::of(true, false, true),
        Way::of(false, true, true),
        Way::PUBLISHED,
    ];

    const fn of(open_parenthesis: bool, dot_first: bool, resource: bool) -> Way {
        Way {
            open_parenthesis,
            dot_first,
            resource,
        }
    }

    /// The numbers of the places that are read in the published way.
    pub fn places(self) -> Vec<usize> {
        let published = [self.open_parenthesis, self.dot_first, self.resource];
        (1..=3).filter(|place| published[place - 1]).collect()
    }
}

pub const DATA: u64 = 0;
pub const LINE_ENDING: u64 = 1;
pub const LINK: u64 = 2;
pub const WWW: u64 = 3;
pub const PROTOCOL: u64 = 4;
pub const EMAIL: u64 = 5;
pub const MAILTO: u64 = 6;
pub const XMPP: u64 = 7;

pub const ENTER: u64 = 0;
pub const EXIT: u64 = 1;

/// Kind (enter or exit), name, line, column, index and vs.
pub type Event = [u64; 6];

/// A name with the first index and the index behind the last.
pub type Span = (u64, usize, usize);

/// The place of each byte and of the end (RULES.md, section 4): line and column.
pub fn places(note: &[u8]) -> Vec<(u64, u64)> {
    let (mut line, mut column) = (1, 1);
    let mut places = vec![];
    for (i, byte) in note.iter().enumerate() {
        places.push((line, column));
        match byte {
            b'\r' if note.get(i + 1) == Some(&b'\n') => {}
            b'\r' | b'\n' => (line, column) = (line + 1, 1),
            b'\t' => column = (column + 3) / 4 * 4 + 1,
            _ => column += 1,
        }
    }
    places.push((line, column));
    places
}

/// Spans as events at their places.
pub fn events_of(note: &[u8], spans: &[Span]) -> Vec<Event> {
    let places = places(note);
    let event = |kind, name, at: usize| [kind, name, places[at].0, places[at].1, at as u64, 0];
    spans
        .iter()
        .flat_map(|&(name, first, end)| [event(ENTER, name, first), event(EXIT, name, end)])
        .collect()
}

/// What resolve makes of a list of spans (RULES.md, section 13): links are runs of their events, first and last.
pub fn resolved(note: &[u8], spans: &[Span], links: &[(usize, usize)], way: Way) -> Vec<Event> {
    let mut all = vec![];
    for (i, &(name, first, end)) in spans.iter().enumerate() {
        let inside = links.iter().find(|l| l.0 <= 2 * i && 2 * i < l.1);
        let split = |(name, first, end): Span| {
            if name == DATA && inside.is_none() {
                let cut = mail::split(&note[first..end], way);
                cut.into_iter().map(|(name, a, b)| (name, first + a, first + b)).collect()
            } else {
                vec![(name, first, end)]
            }
        };
        let edge = |kind, at| {
            let mut event = events_of(note, &[(LINK, at, at)])[0];
            event[0] = kind;
            event
        };
        if inside.map_or(false, |l| l.0 == 2 * i) {
            all.push(edge(ENTER, first));
        }
        all.extend(events_of(note, &split((name, first, end))));
        if inside.map_or(false, |l| l.1 == 2 * i + 1) {
            all.push(edge(EXIT, end));
        }
    }
    all
}
