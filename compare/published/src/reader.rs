//! Runs of the published engine: pushes with an allowance, the end, and what it found, as plain numbers.

use crate::event::{Event, Kind, Name, Point};
use crate::message::Message;
use crate::parser::ParseState;
use crate::stand_ins::OPTIONS;
use crate::state::{Name as StateName, State};
use crate::tokenizer::Tokenizer;
use crate::util::char::{kind_after_index, Kind as CharacterKind};
use crate::util::edit_map::EditMap;

pub fn parse_state(note: &[u8]) -> ParseState<'_> {
    ParseState {
        location: None,
        options: &OPTIONS,
        bytes: note,
        definitions: vec![],
        gfm_footnote_definitions: vec![],
    }
}

fn start() -> Point {
    Point {
        line: 1,
        column: 1,
        index: 0,
        vs: 0,
    }
}

/// Counts a state call, or puts it off because the allowance is made.
///
/// Two registers that no state in use touches, and that no attempt puts back, hold the count (`size_c`) and the
/// count at which to pause (`end`).
pub fn meter(tokenizer: &mut Tokenizer, due: StateName) -> Option<State> {
    let registers = &mut tokenizer.tokenize_state;
    if registers.size_c == registers.end {
        Some(State::Error(Message { due }))
    } else {
        registers.size_c += 1;
        None
    }
}

/// A tokenizer over a note, with the state that is next.
pub struct Reader<'a> {
    tokenizer: Tokenizer<'a>,
    state: State,
}

impl<'a> Reader<'a> {
    pub fn new(parse_state: &'a ParseState<'a>) -> Reader<'a> {
        Reader {
            tokenizer: Tokenizer::new(start(), parse_state),
            state: State::Next(StateName::TextBefore),
        }
    }

    fn allow(&mut self, allowance: u64) -> usize {
        let made = self.tokenizer.tokenize_state.size_c;
        self.tokenizer.tokenize_state.end = made.saturating_add(allowance.min(usize::MAX as u64) as usize);
        made
    }

    /// Answers the steps made, and whether it is done.
    ///
    /// The byte shown when a call is put off is the one at the point, also where the call is a retry. So the
    /// same call is due again by `Next`.
    fn made_since(&mut self, before: usize, due: Option<StateName>) -> (u64, bool) {
        if let Some(name) = due {
            self.state = State::Next(name);
        }
        ((self.tokenizer.tokenize_state.size_c - before) as u64, due.is_none())
    }

    fn run_to(&mut self, to: usize) -> Option<StateName> {
        let from = (self.tokenizer.point.index, self.tokenizer.point.vs);
        let state = std::mem::replace(&mut self.state, State::Nok);
        match self.tokenizer.push(from, (to, 0), state) {
            State::Error(message) => Some(message.due),
            state => {
                self.state = state;
                None
            }
        }
    }

    pub fn push(&mut self, to: usize, allowance: u64) -> (u64, bool) {
        let before = self.allow(allowance);
        let due = self.run_to(to);
        self.made_since(before, due)
    }

    /// The end. A flush goes no further than the point where it begins, so what an earlier pause of the end has
    /// left before the note's end is pushed first.
    pub fn end(&mut self, allowance: u64) -> (u64, bool) {
        let before = self.allow(allowance);
        let due = self.run_to(self.tokenizer.parse_state.bytes.len()).or_else(|| {
            let state = std::mem::replace(&mut self.state, State::Nok);
            self.tokenizer.flush(state, false).err().map(|message| message.due)
        });
        self.made_since(before, due)
    }

    /// Joins neighbouring data. Stands in for the published joining, which is not at hand.
    pub fn join(&mut self) {
        let events = &mut self.tokenizer.events;
        let is = |event: &Event, kind: Kind| event.kind == kind && event.name == Name::Data;
        let mut kept = 0;
        for i in 0..events.len() {
            if kept > 0 && is(&events[kept - 1], Kind::Exit) && is(&events[i], Kind::Enter) {
                kept -= 1;
            } else {
                events.swap(kept, i);
                kept += 1;
            }
        }
        events.truncate(kept);
    }

    /// The events once links are put around runs of them and the published resolver of literal links is called.
    /// The reader keeps its events as they are.
    pub fn resolved(&mut self, links: &[(usize, usize)]) -> Vec<[u64; 6]> {
        let kept = self.tokenizer.events.clone();
        self.resolve(links);
        let resolved = self.events();
        self.tokenizer.events = kept;
        resolved
    }

    fn resolve(&mut self, links: &[(usize, usize)]) {
        let tokenizer = &mut self.tokenizer;
        for (first, last) in links {
            let edge = |kind: Kind, at: usize| Event {
                kind,
                name: Name::Link,
                point: tokenizer.events[at].point.clone(),
                link: None,
            };
            let (enter, exit) = (edge(Kind::Enter, *first), edge(Kind::Exit, *last));
            tokenizer.map.add(*first, 0, vec![enter]);
            // Where two links touch, the first one's exit stands before the second one's enter.
            tokenizer.map.add_before(*last + 1, 0, vec![exit]);
        }
        crate::gfm_autolink_literal::resolve(tokenizer);
        tokenizer.map.consume(&mut tokenizer.events);
    }

    /// Events as kind, name, line, column, index and vs.
    pub fn events(&self) -> Vec<[u64; 6]> {
        self.tokenizer.events.iter().map(plain).collect()
    }

    /// Whether these are the events, without a list of them being made.
    pub fn has_events(&self, events: &[[u64; 6]]) -> bool {
        self.tokenizer.events.len() == events.len()
            && self
                .tokenizer
                .events
                .iter()
                .zip(events)
                .all(|(event, other)| plain(event) == *other)
    }

    /// Point, byte before (256 for none), open names and registers: what a pause leaves besides events.
    pub fn cursor(&self) -> [u64; 12] {
        let (point, registers) = (&self.tokenizer.point, &self.tokenizer.tokenize_state);
        [
            point.line as u64,
            point.column as u64,
            point.index as u64,
            point.vs as u64,
            self.tokenizer.previous.map_or(256, u64::from),
            self.tokenizer.stack.len() as u64,
            registers.size as u64,
            registers.size_b as u64,
            registers.start as u64,
            u64::from(registers.marker),
            u64::from(registers.marker_b),
            u64::from(registers.seen),
        ]
    }
}

fn plain(event: &Event) -> [u64; 6] {
    let kind = match event.kind {
        Kind::Enter => 0,
        Kind::Exit => 1,
    };
    let name = match event.name {
        Name::Data => 0,
        Name::LineEnding => 1,
        Name::Link => 2,
        Name::GfmAutolinkLiteralWww => 3,
        Name::GfmAutolinkLiteralProtocol => 4,
        Name::GfmAutolinkLiteralEmail => 5,
        Name::GfmAutolinkLiteralMailto => 6,
        Name::GfmAutolinkLiteralXmpp => 7,
        _ => unreachable!("a name that is left out"),
    };
    let point = &event.point;
    [
        kind,
        name,
        point.line as u64,
        point.column as u64,
        point.index as u64,
        point.vs as u64,
    ]
}

/// The kind at each place: 0 white space, 1 punctuation, 2 other.
pub fn kinds(note: &[u8]) -> Vec<u8> {
    let number = |kind| match kind {
        CharacterKind::Whitespace => 0,
        CharacterKind::Punctuation => 1,
        CharacterKind::Other => 2,
    };
    (0..=note.len()).map(|i| number(kind_after_index(note, i))).collect()
}

/// The numbers 0 to `length` − 1 after edits (before the elements there?, place, count, added numbers), made as
/// events and consumed by the published map. It panics where an edit is out of range or inside a removed run.
pub fn edited(length: usize, edits: &[(bool, usize, usize, Vec<usize>)]) -> Vec<usize> {
    let event = |&index: &usize| Event {
        kind: Kind::Enter,
        name: Name::Data,
        point: Point {
            line: 1,
            column: 1,
            index,
            vs: 0,
        },
        link: None,
    };
    let mut map = EditMap::new();
    for (before, place, count, added) in edits {
        let added = added.iter().map(event).collect();
        if *before {
            map.add_before(*place, *count, added);
        } else {
            map.add(*place, *count, added);
        }
    }
    let mut events = (0..length).collect::<Vec<_>>().iter().map(event).collect();
    map.consume(&mut events);
    events.iter().map(|event| event.point.index).collect()
}

/// Reads a note to its end and joins data: the number of events. For measuring.
pub fn read_whole(note: &[u8]) -> usize {
    let parse_state = parse_state(note);
    let mut reader = Reader::new(&parse_state);
    assert!(reader.run_to(note.len()).is_none());
    let state = std::mem::replace(&mut reader.state, State::Nok);
    assert!(reader.tokenizer.flush(state, false).is_ok());
    reader.join();
    reader.tokenizer.events.len()
}
