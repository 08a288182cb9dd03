//! The engine, state call by state call (ENGINE.md, sections 3 to 9).

use crate::characters::{kind, Kind};
use crate::{Event, Way, DATA, ENTER, EXIT, LINE_ENDING, PROTOCOL, WWW};

#[derive(Clone, Copy, Debug, PartialEq, Eq)]
pub enum State {
    Before,
    Line,
    Data,
    Inside,
    ProtocolStart,
    ProtocolPrefixInside,
    ProtocolSlashesInside,
    ProtocolAfter,
    WwwStart,
    WwwPrefixInside,
    WwwPrefixAfter,
    WwwAfter,
    DomainInside,
    DomainAtPunctuation,
    DomainAfter,
    PathInside,
    PathAtPunctuation,
    PathAfter,
    Trail,
    TrailBracketAfter,
    TrailCharRefStart,
    TrailCharRefInside,
}

pub const STATES: usize = 22;

#[derive(Clone, Copy, Debug, PartialEq, Eq)]
pub enum Answer {
    Next(State),
    Retry(State),
    Ok,
    Nok,
}

use Answer::{Next, Nok, Ok, Retry};

#[derive(Clone, Copy, Debug, PartialEq, Eq)]
struct Point {
    line: u64,
    column: u64,
    index: usize,
    vs: u64,
}

struct Capture {
    before: Option<u8>,
    shown: Option<u8>,
    point: Point,
    events: usize,
    names: usize,
}

struct Try {
    check: bool,
    ok: Answer,
    nok: Answer,
    capture: Option<Capture>,
}

pub struct Machine<'a> {
    note: &'a [u8],
    set: &'a [(u32, u32)],
    way: Way,
    answer: Answer,
    point: Point,
    before: Option<u8>,
    shown: Option<u8>,
    size: u64,
    size_b: u64,
    start: usize,
    marker: u8,
    marker_b: u8,
    seen: bool,
    tries: Vec<Try>,
    names: Vec<u64>,
    events: Vec<Event>,
    /// Whether `trail` was called at a `)` while a parenthesis was open.
    pub met: bool,
    /// The states called so far, a bit each.
    pub called: u32,
    /// The most checks and attempts, and the most names, held at once.
    pub held: (usize, usize),
}

impl<'a> Machine<'a> {
    pub fn new(note: &'a [u8], set: &'a [(u32, u32)], way: Way) -> Machine<'a> {
        Machine {
            note,
            set,
            way,
            answer: Next(State::Before),
            point: Point {
                line: 1,
                column: 1,
                index: 0,
                vs: 0,
            },
            before: None,
            shown: None,
            size: 0,
            size_b: 0,
            start: 0,
            marker: 0,
            marker_b: 0,
            seen: false,
            tries: vec![],
            names: vec![],
            events: vec![],
            met: false,
            called: 0,
            held: (0, 0),
        }
    }

    pub fn push(&mut self, to: usize, allowance: u64) -> (u64, bool) {
        self.run(to, allowance, false)
    }

    pub fn end(&mut self, allowance: u64) -> (u64, bool) {
        self.run(self.note.len(), allowance, true)
    }

    pub fn join(&mut self) {
        let mut i = 1;
        while i < self.events.len() {
            if self.events[i - 1][..2] == [EXIT, DATA] && self.events[i][..2] == [ENTER, DATA] {
                self.events.drain(i - 1..=i);
            } else {
                i += 1;
            }
        }
    }

    pub fn events(&self) -> &[Event] {
        &self.events
    }

    /// Point, byte before (256 for none), number of open names, registers.
    pub fn cursor(&self) -> [u64; 12] {
        [
            self.point.line,
            self.point.column,
            self.point.index as u64,
            self.point.vs,
            self.before.map_or(256, u64::from),
            self.names.len() as u64,
            self.size,
            self.size_b,
            self.start as u64,
            u64::from(self.marker),
            u64::from(self.marker_b),
            u64::from(self.seen),
        ]
    }

    fn run(&mut self, limit: usize, allowance: u64, end: bool) -> (u64, bool) {
        let mut steps = 0;
        loop {
            while matches!(self.answer, Ok | Nok) && !self.tries.is_empty() {
                self.settle();
            }
            if matches!(self.answer, Next(_)) && self.point.index < limit && self.at_passed_cr(self.point.index) {
                self.point.index += 1;
            }
            let state = match self.answer {
                Retry(state) => state,
                Next(state) if self.point.index < limit || end => state,
                _ => return (steps, true),
            };
            if steps == allowance {
                return (steps, false);
            }
            if matches!(self.answer, Next(_)) {
                self.show();
            }
            self.answer = self.call(state);
            self.called |= 1 << state as u32;
            self.held = (self.held.0.max(self.tries.len()), self.held.1.max(self.names.len()));
            steps += 1;
        }
    }

    fn at_passed_cr(&self, i: usize) -> bool {
        self.note.get(i) == Some(&b'\r') && self.note.get(i + 1) == Some(&b'\n')
    }

    fn show(&mut self) {
        self.shown = self.note.get(self.point.index).map(|byte| match byte {
            b'\r' => b'\n',
            b'\t' if self.point.vs > 0 => b' ',
            byte => *byte,
        });
    }

    fn consume(&mut self) {
        let point = &mut self.point;
        match (self.note[point.index], self.shown) {
            (b'\t', _) if point.column % 4 != 0 => {
                point.column += 1;
                point.vs += 1;
            }
            (_, Some(b'\n')) => {
                *point = Point {
                    line: point.line + 1,
                    column: 1,
                    index: point.index + 1,
                    vs: 0,
                }
            }
            _ => {
                *point = Point {
                    column: point.column + 1,
                    index: point.index + 1,
                    vs: 0,
                    ..*point
                }
            }
        }
        self.before = self.shown.take();
    }

    fn event(&mut self, kind: u64, name: u64) {
        let Point { line, column, index, vs } = self.point;
        let index = if index > 0 && self.at_passed_cr(index - 1) {
            index - 1
        } else {
            index
        };
        self.events.push([kind, name, line, column, index as u64, vs]);
    }

    fn enter(&mut self, name: u64) {
        self.event(ENTER, name);
        self.names.push(name);
    }

    fn exit(&mut self, name: u64) {
        assert_eq!(self.names.pop(), Some(name));
        self.event(EXIT, name);
    }

    fn begin(&mut self, check: bool, ok: Answer, nok: Answer) {
        let capture = if check || nok != Nok {
            Some(Capture {
                before: self.before,
                shown: self.shown,
                point: self.point,
                events: self.events.len(),
                names: self.names.len(),
            })
        } else {
            None
        };
        self.tries.push(Try { check, ok, nok, capture });
    }

    fn check(&mut self, ok: Answer, nok: Answer) {
        self.begin(true, ok, nok);
    }

    fn attempt(&mut self, ok: Answer, nok: Answer) {
        self.begin(false, ok, nok);
    }

    fn settle(&mut self) {
        let latest = self.tries.pop().unwrap();
        if latest.check || self.answer == Nok {
            if let Some(capture) = latest.capture {
                self.before = capture.before;
                self.shown = capture.shown;
                self.point = capture.point;
                self.events.truncate(capture.events);
                self.names.truncate(capture.names);
            }
        }
        self.answer = if self.answer == Ok { latest.ok } else { latest.nok };
    }

    fn kind(&self) -> Kind {
        kind(self.note, self.point.index, self.set)
    }

    fn take(&mut self, state: State) -> Answer {
        self.consume();
        Next(state)
    }

    fn call(&mut self, state: State) -> Answer {
        let shown = self.shown;
        let letter = shown.map_or(false, |b| b.is_ascii_alphabetic());
        let open = self.size_b < self.size;
        match state {
            State::Before => match shown {
                None => Ok,
                Some(b'H' | b'h') => {
                    self.attempt(Next(State::Before), Next(State::Data));
                    Retry(State::ProtocolStart)
                }
                Some(b'W' | b'w') => {
                    self.attempt(Next(State::Before), Next(State::Data));
                    Retry(State::WwwStart)
                }
                Some(b'\n') => {
                    self.enter(LINE_ENDING);
                    self.take(State::Line)
                }
                _ => Retry(State::Data),
            },
            State::Line => {
                self.exit(LINE_ENDING);
                Retry(State::Before)
            }
            State::Data => {
                self.enter(DATA);
                self.take(State::Inside)
            }
            State::Inside => match shown {
                None | Some(b'\n' | b'H' | b'h' | b'W' | b'w') => {
                    self.exit(DATA);
                    Retry(State::Before)
                }
                _ => self.take(State::Inside),
            },
            State::ProtocolStart => {
                if !matches!(shown, Some(b'H' | b'h')) || self.before.map_or(false, |b| b.is_ascii_alphabetic()) {
                    return Nok;
                }
                self.enter(PROTOCOL);
                self.attempt(Next(State::ProtocolAfter), Nok);
                self.attempt(Next(State::DomainInside), Nok);
                self.start = self.point.index;
                Retry(State::ProtocolPrefixInside)
            }
            State::ProtocolPrefixInside => {
                let read = &self.note[self.start..self.point.index];
                if letter && read.len() < 5 {
                    return self.take(State::ProtocolPrefixInside);
                }
                let named = read.eq_ignore_ascii_case(b"http") || read.eq_ignore_ascii_case(b"https");
                self.start = 0;
                if shown == Some(b':') && named {
                    self.take(State::ProtocolSlashesInside)
                } else {
                    Nok
                }
            }
            State::ProtocolSlashesInside => match (shown, self.size) {
                (Some(b'/'), 0) => {
                    self.size = 1;
                    self.take(State::ProtocolSlashesInside)
                }
                (Some(b'/'), _) => {
                    self.size = 0;
                    self.consume();
                    Ok
                }
                _ => {
                    self.size = 0;
                    Nok
                }
            },
            State::ProtocolAfter => {
                self.exit(PROTOCOL);
                Ok
            }
            State::WwwStart => {
                let fits = matches!(
                    self.before,
                    None | Some(b'\t' | b'\n' | b' ' | b'(' | b'*' | b'_' | b'[' | b']' | b'~')
                );
                if !matches!(shown, Some(b'W' | b'w')) || !fits {
                    return Nok;
                }
                self.enter(WWW);
                self.attempt(Next(State::WwwAfter), Nok);
                self.check(Next(State::DomainInside), Nok);
                Retry(State::WwwPrefixInside)
            }
            State::WwwPrefixInside => match shown {
                Some(b'.') if self.size == 3 => {
                    self.size = 0;
                    self.take(State::WwwPrefixAfter)
                }
                Some(b'W' | b'w') if self.size < 3 => {
                    self.size += 1;
                    self.take(State::WwwPrefixInside)
                }
                _ => {
                    self.size = 0;
                    Nok
                }
            },
            State::WwwPrefixAfter => match shown {
                None => Nok,
                Some(_) => Ok,
            },
            State::WwwAfter => {
                self.exit(WWW);
                Ok
            }
            State::DomainInside => match shown {
                Some(b'.' | b'_') => {
                    self.check(Next(State::DomainAfter), Next(State::DomainAtPunctuation));
                    Retry(State::Trail)
                }
                Some(b'-' | 0x80..=0xBF) => self.take(State::DomainInside),
                _ if self.kind() == Kind::Other => {
                    self.seen = true;
                    self.take(State::DomainInside)
                }
                _ => Retry(State::DomainAfter),
            },
            State::DomainAtPunctuation => {
                if shown == Some(b'_') {
                    self.marker = b'_';
                } else {
                    self.marker_b = self.marker;
                    self.marker = 0;
                }
                self.take(State::DomainInside)
            }
            State::DomainAfter => {
                let bad = self.marker == b'_' || self.marker_b == b'_' || !self.seen;
                (self.marker, self.marker_b, self.seen) = (0, 0, false);
                if bad {
                    Nok
                } else {
                    Retry(State::PathInside)
                }
            }
            State::PathInside => match shown {
                Some(0x80..=0xBF) => self.take(State::PathInside),
                Some(b'(') => {
                    self.size += 1;
                    self.take(State::PathInside)
                }
                Some(b')') if open => {
                    self.check(Next(State::PathAtPunctuation), Next(State::PathAtPunctuation));
                    Retry(State::Trail)
                }
                Some(b'!' | b'"' | b'&' | b'\'' | b')' | b'*' | b',' | b'.' | b':' | b';' | b'<' | b'?' | b']' | b'_' | b'~') => {
                    self.check(Next(State::PathAfter), Next(State::PathAtPunctuation));
                    Retry(State::Trail)
                }
                None => Retry(State::PathAfter),
                _ if self.kind() == Kind::WhiteSpace => Retry(State::PathAfter),
                _ => self.take(State::PathInside),
            },
            State::PathAtPunctuation => {
                if shown == Some(b')') {
                    self.size_b += 1;
                }
                self.take(State::PathInside)
            }
            State::PathAfter => {
                (self.size, self.size_b) = (0, 0);
                Ok
            }
            State::Trail => {
                if shown == Some(b')') && open {
                    self.met = true;
                    if !self.way.open_parenthesis {
                        return Nok;
                    }
                }
                match shown {
                    Some(b']') => self.take(State::TrailBracketAfter),
                    Some(b'!' | b'"' | b'\'' | b')' | b'*' | b',' | b'.' | b':' | b';' | b'?' | b'_' | b'~') => self.take(State::Trail),
                    Some(b'&') => self.take(State::TrailCharRefStart),
                    Some(b'<') | None => Ok,
                    _ if self.kind() == Kind::WhiteSpace => Ok,
                    _ => Nok,
                }
            }
            State::TrailBracketAfter => match shown {
                None | Some(b'\t' | b'\n' | b' ' | b'(' | b'[') => Ok,
                _ => Retry(State::Trail),
            },
            State::TrailCharRefStart => {
                if letter {
                    Retry(State::TrailCharRefInside)
                } else {
                    Nok
                }
            }
            State::TrailCharRefInside => {
                if letter {
                    self.take(State::TrailCharRefInside)
                } else if shown == Some(b';') {
                    self.take(State::Trail)
                } else {
                    Nok
                }
            }
        }
    }
}
