//! One note, read by all: the published sources, the expected answers in both ways, and the proved reader.

use crate::library;
use crate::sets::Set;
use expected::machine::Machine;
use expected::{characters, mail, resolved, web, Event, Span, Way, DATA, EMAIL, XMPP};
use notes::chance::Chance;
use published::Reader;

/// The calls made on a note: pushes (to, allowance), the last of which goes to the end without a limit, and
/// allowances of ends, to be followed by one without a limit.
#[derive(Clone, Default)]
pub struct Calls {
    pub pushes: Vec<(usize, u64)>,
    pub ends: Vec<u64>,
}

impl Calls {
    pub fn one_push(note: &[u8]) -> Calls {
        Calls {
            pushes: vec![(note.len(), u64::MAX)],
            ends: vec![],
        }
    }

    /// Pushes to rising places with allowances. A paused push is mostly made again, and sometimes overtaken by a
    /// push further on.
    pub fn split(note: &[u8], set: &Set, chance: &mut Chance) -> Calls {
        let mut machine = Machine::new(note, set.ranges, Way::OURS);
        let mut calls = Calls::default();
        let largest = *[1, 2, 3, 7, 50, 1000].get(chance.below(6)).unwrap();
        let cuts = 1 + chance.below(8);
        let mut to = 0;
        while to < note.len() && calls.pushes.len() < 200 {
            to = (to + chance.below(2 + 2 * note.len() / cuts)).min(note.len());
            loop {
                let allowance = if chance.one_in(8) {
                    u64::MAX
                } else {
                    1 + chance.below(largest) as u64
                };
                calls.pushes.push((to, allowance));
                let (_, done) = machine.push(to, allowance);
                if done || chance.one_in(16) || calls.pushes.len() >= 200 {
                    break;
                }
            }
        }
        if chance.one_in(2) {
            calls.pushes.push((to, 1));
        }
        calls.pushes.push((note.len(), u64::MAX));
        for _ in 0..chance.below(6) {
            calls.ends.push(1 + chance.below(largest) as u64);
        }
        calls
    }
}

/// Runs of events to be marked: the numbers of the first and the last.
pub type Links = Vec<(usize, usize)>;

/// As many links as a reader marks.
const MOST_LINKS: usize = 64;

/// Runs that may be marked in an ended list of so many spans: each from an enter to a later exit, beyond the run before.
fn links_by_chance(spans: usize, chance: &mut Chance) -> Links {
    let most = [1, 2, 8, MOST_LINKS][chance.below(4)];
    let gap = [1, 2, 5, 30][chance.below(4)];
    let length = [1, 2, 5, 40][chance.below(4)];
    let (mut links, mut next) = (vec![], 0);
    while links.len() < most {
        let first = next + chance.below(gap);
        if first >= spans {
            break;
        }
        let last = (first + chance.below(length)).min(spans - 1);
        links.push((2 * first, 2 * last + 1));
        next = last + 1;
    }
    links
}

/// What came of resolving, and how often a named difference showed in it.
#[derive(Default, Debug, Clone)]
pub struct ResolvedTally {
    pub lists: u64,
    pub links: u64,
    pub events: u64,
    /// How often each of `Way::ALL` was the first that gives the published events: at 0, ours.
    pub needed: [u64; Way::ALL.len()],
}

impl ResolvedTally {
    fn add(&mut self, other: &ResolvedTally) {
        self.lists += other.lists;
        self.links += other.links;
        self.events += other.events;
        for (sum, needed) in self.needed.iter_mut().zip(other.needed) {
            *sum += needed;
        }
    }
}

/// What was compared, and how often a named difference was met and showed.
#[derive(Default, Debug, Clone)]
pub struct Tally {
    pub notes: u64,
    pub bytes: u64,
    pub calls: u64,
    pub paused: u64,
    pub steps: u64,
    pub events: u64,
    pub with_web: u64,
    pub with_mail: u64,
    pub kinds: u64,
    pub open_met: u64,
    pub open_spans: u64,
    pub open_steps: u64,
    pub dot_met: u64,
    pub resource_met: u64,
    pub unmarked: ResolvedTally,
    pub marked: ResolvedTally,
    pub called: u32,
    pub most_steps: u64,
}

impl Tally {
    pub fn add(&mut self, other: &Tally) {
        let Tally {
            notes,
            bytes,
            calls,
            paused,
            steps,
            events,
            with_web,
            with_mail,
            kinds,
            open_met,
            open_spans,
            open_steps,
            dot_met,
            resource_met,
            unmarked,
            marked,
            called,
            most_steps,
        } = other;
        self.notes += notes;
        self.bytes += bytes;
        self.calls += calls;
        self.paused += paused;
        self.steps += steps;
        self.events += events;
        self.with_web += with_web;
        self.with_mail += with_mail;
        self.kinds += kinds;
        self.open_met += open_met;
        self.open_spans += open_spans;
        self.open_steps += open_steps;
        self.dot_met += dot_met;
        self.resource_met += resource_met;
        self.unmarked.add(unmarked);
        self.marked.add(marked);
        self.called |= called;
        self.most_steps = self.most_steps.max(*most_steps);
    }
}

/// The numbers that `read_note` writes: two for each push, two for the end; then the count of events and six for each,
/// and the same of the resolved events.
pub fn numbers(pushes: &[(u64, bool)], end: u64, events: &[Event], resolved: &[Event]) -> Vec<u64> {
    let mut out: Vec<u64> = pushes.iter().flat_map(|(steps, done)| [*steps, u64::from(*done)]).collect();
    out.extend([end, 1]);
    for events in [events, resolved] {
        out.push(events.len() as u64);
        out.extend(events.iter().flatten());
    }
    out
}

/// Pairs of numbers one after another, as `read_note` takes them.
pub fn row(pairs: &[(usize, usize)]) -> Vec<u64> {
    pairs.iter().flat_map(|pair| [pair.0 as u64, pair.1 as u64]).collect()
}

pub fn hex(bytes: &[u8]) -> String {
    bytes.iter().map(|b| format!("{:02x}", b)).collect()
}

/// Events after links are marked and resolved, and the way that gives them.
pub struct Resolved {
    pub links: Links,
    pub events: Vec<Event>,
    pub way: Way,
}

/// The published answers of a run, for the fixed list.
pub struct Answers {
    pub pushes: Vec<(u64, bool)>,
    pub end: u64,
    pub joined: Vec<Event>,
    pub open_met: bool,
    /// Without links, and with links marked by chance.
    pub unmarked: Resolved,
    pub marked: Resolved,
    pub called: u32,
}

macro_rules! same {
    ($left:expr, $right:expr, $($what:tt)*) => {{
        let (left, right) = (&$left, &$right);
        if left != right {
            return Err(format!("{}\n    {:?}\n    {:?}", format!($($what)*), left, right));
        }
    }};
}

/// Compares on one note, with links marked by chance and without. An error says what differs, with the note in
/// hexadecimal.
pub fn compare(note: &[u8], set: &Set, calls: &Calls, chance: &mut Chance, tally: &mut Tally) -> Result<Answers, String> {
    // A panic of the published sources is a difference, too.
    let run = std::panic::AssertUnwindSafe(|| compared(note, set, calls, chance, tally));
    let result = std::panic::catch_unwind(run).unwrap_or_else(|_| Err("panicked".into()));
    result.map_err(|what| {
        let (pushes, ends) = (&calls.pushes, &calls.ends);
        format!(
            "note {}\n  set {}, pushes {:?}, ends {:?}\n  {}",
            hex(note),
            set.name,
            pushes,
            ends,
            what
        )
    })
}

/// The kinds at each place, and how many places there are.
fn compared_kinds(note: &[u8], set: &Set) -> Result<u64, String> {
    let kinds = published::kinds(note);
    let expected: Vec<u8> = (0..=note.len()).map(|i| characters::kind(note, i, set.ranges) as u8).collect();
    same!(kinds, expected, "kinds: published and expected");
    if library::LINKED {
        same!(library::kinds_of(note, &set.row), kinds, "kinds_of and published");
    }
    Ok(kinds.len() as u64)
}

/// Compares the kinds alone.
pub fn compare_kinds(note: &[u8], set: &Set, tally: &mut Tally) -> Result<(), String> {
    published::use_set(set.ranges);
    tally.kinds += compared_kinds(note, set).map_err(|what| format!("note {}\n  set {}\n  {}", hex(note), set.name, what))?;
    Ok(())
}

/// A note that all have read to its end, and its spans by the rules in both ways.
struct Ended<'a> {
    note: &'a [u8],
    cut: Vec<Span>,
    published_cut: Vec<Span>,
}

/// Compares the resolved events. What differs must be a named difference: there is a way that gives them.
fn compared_resolved(ended: &Ended, reader: &mut Reader, links: Links, tally: &mut ResolvedTally) -> Result<Resolved, String> {
    let published = reader.resolved(&links);
    let expected = |way: Way| {
        let spans = if way.open_parenthesis { &ended.published_cut } else { &ended.cut };
        resolved(ended.note, spans, &links, way)
    };
    same!(
        published,
        expected(Way::PUBLISHED),
        "resolved with links {:?}: published and expected",
        links
    );
    let rank = Way::ALL.iter().position(|way| published == expected(*way)).unwrap();
    tally.lists += 1;
    tally.links += links.len() as u64;
    tally.events += published.len() as u64;
    tally.needed[rank] += 1;
    Ok(Resolved {
        links,
        events: published,
        way: Way::ALL[rank],
    })
}

fn compared(note: &[u8], set: &Set, calls: &Calls, chance: &mut Chance, tally: &mut Tally) -> Result<Answers, String> {
    published::use_set(set.ranges);
    let parse_state = published::parse_state(note);
    let mut reader = Reader::new(&parse_state);
    let mut published_way = Machine::new(note, set.ranges, Way::PUBLISHED);
    let mut our_way = Machine::new(note, set.ranges, Way::OURS);
    let (mut made, mut ours) = (vec![], vec![]);

    // Each call: the published reader and the machine in the published way hold the same.
    for (i, &(to, allowance)) in calls.pushes.iter().enumerate() {
        let answer = reader.push(to, allowance);
        same!(answer, published_way.push(to, allowance), "push {}: published and expected", i);
        if !reader.has_events(published_way.events()) || reader.cursor() != published_way.cursor() {
            same!(reader.events(), published_way.events(), "events after push {}", i);
            same!(reader.cursor(), published_way.cursor(), "cursor after push {}", i);
        }
        made.push(answer);
        ours.push(our_way.push(to, allowance));
        tally.paused += u64::from(!answer.1);
    }
    let (mut end, mut our_end) = (0, 0);
    for (i, allowance) in calls.ends.iter().chain([&u64::MAX]).enumerate() {
        let answer = reader.end(*allowance);
        same!(answer, published_way.end(*allowance), "end {}: published and expected", i);
        same!(reader.events(), published_way.events(), "events after end {}", i);
        same!(reader.cursor(), published_way.cursor(), "cursor after end {}", i);
        end += answer.0;
        our_end += our_way.end(*allowance).0;
        tally.paused += u64::from(!answer.1);
        if answer.1 {
            break;
        }
    }
    // Where the published end was done sooner than ours.
    our_end += our_way.end(u64::MAX).0;
    reader.join();
    published_way.join();
    our_way.join();
    let joined = reader.events();
    same!(joined, published_way.events(), "joined events: published and expected");

    // The rules, without states.
    let (web_spans, open_met) = web::spans(note, set.ranges, Way::OURS);
    let (published_spans, published_met) = web::spans(note, set.ranges, Way::PUBLISHED);
    same!(
        (open_met, open_met, open_met),
        (published_met, our_way.met, published_way.met),
        "parenthesis met: rules and machines"
    );
    let (cut, published_cut) = (web::cut(note, &web_spans), web::cut(note, &published_spans));
    same!(
        expected::events_of(note, &published_cut),
        joined,
        "spans: rules in the published way and published"
    );
    same!(expected::events_of(note, &cut), our_way.events(), "spans: rules and machine");

    // Our way differs only where a parenthesis is met.
    let total = |calls: &[(u64, bool)], end: u64| calls.iter().map(|c| c.0).sum::<u64>() + end;
    let (steps, our_steps) = (total(&made, end), total(&ours, our_end));
    if open_met {
        tally.open_met += 1;
        if cut != published_cut {
            tally.open_spans += 1;
        } else {
            tally.open_steps += u64::from(steps != our_steps);
        }
    } else {
        same!(made, ours, "pushes: published and ours");
        same!(end, our_end, "end: published and ours");
        same!(joined, our_way.events(), "events: published and ours");
    }

    let kinds = compared_kinds(note, set)?;

    let (mut dot_met, mut resource_met) = (false, false);
    for &(_, first, end) in published_cut.iter().filter(|span| span.0 == DATA) {
        let (_, dot, resource) = mail::addresses(&note[first..end], Way::PUBLISHED);
        let (_, our_dot, our_resource) = mail::addresses(&note[first..end], Way::OURS);
        same!(dot || resource, our_dot || our_resource, "mail differences met");
        dot_met |= dot;
        resource_met |= resource;
    }

    let links = links_by_chance(cut.len().min(published_cut.len()), chance);
    let ended = Ended { note, cut, published_cut };
    let unmarked = compared_resolved(&ended, &mut reader, vec![], &mut tally.unmarked)?;
    let marked = compared_resolved(&ended, &mut reader, links, &mut tally.marked)?;
    // A place shows only where its test says that it is met.
    for Resolved { links, way, .. } in [&unmarked, &marked] {
        same!(
            (
                way.open_parenthesis && !open_met,
                way.dot_first && !dot_met,
                way.resource && !resource_met
            ),
            (false, false, false),
            "resolved with links {:?}: places that show without being met",
            links
        );
    }

    // The proved reader: ours on every note, so the published answer wherever no named difference is met.
    if library::LINKED {
        let pushes: Vec<u64> = calls.pushes.iter().flat_map(|p| [p.0 as u64, p.1]).collect();
        for Resolved { links, events, way } in [&unmarked, &marked] {
            let read = library::read_note(note, &set.row, &pushes, &row(links));
            let resolved = resolved(note, &ended.cut, links, Way::OURS);
            same!(
                read,
                Ok(numbers(&ours, our_end, our_way.events(), &resolved)),
                "read_note with links {:?}: proved and expected",
                links
            );
            if !open_met && *way == Way::OURS {
                same!(
                    read,
                    Ok(numbers(&made, end, &joined, events)),
                    "read_note with links {:?}: proved and published",
                    links
                );
            }
        }
    }

    let has_mail = unmarked.events.iter().any(|event| (EMAIL..=XMPP).contains(&event[1]));

    tally.notes += 1;
    tally.bytes += note.len() as u64;
    tally.calls += (calls.pushes.len() + calls.ends.len() + 1) as u64;
    tally.steps += steps;
    tally.events += joined.len() as u64;
    tally.with_web += u64::from(!published_spans.is_empty());
    tally.with_mail += u64::from(has_mail);
    tally.kinds += kinds;
    tally.dot_met += u64::from(dot_met);
    tally.resource_met += u64::from(resource_met);
    tally.called |= published_way.called;
    tally.most_steps = tally.most_steps.max(steps);
    Ok(Answers {
        pushes: made,
        end,
        joined,
        open_met,
        unmarked,
        marked,
        called: published_way.called,
    })
}

/// Compares edits. The published map panics where ours refuses.
pub fn compare_edits(chance: &mut Chance) -> Result<bool, String> {
    let length = chance.below(9);
    let edits: Vec<expected::edits::Edit> = (0..chance.below(6))
        .map(|k| {
            let count = if chance.one_in(2) { 0 } else { chance.below(3) };
            let added = (0..chance.below(3)).map(|n| 100 * (k + 1) + n).collect();
            (chance.one_in(2), chance.below(length + 2), count, added)
        })
        .collect();
    let published = std::panic::catch_unwind(|| published::edited(length, &edits));
    let expected = expected::edits::edited(length, &edits);
    match (published, &expected) {
        (Ok(list), Ok(same)) if list == *same => Ok(false),
        (Err(_), Err(_)) => Ok(true),
        (published, _) => Err(format!(
            "edits of {}: {:?}\n    {:?}\n    {:?}",
            length,
            edits,
            published.ok(),
            expected
        )),
    }
}
