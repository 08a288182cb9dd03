//! Compares the published sources with the rules and, if its library is linked, with the proved reader.
//!
//! `driver DOCS [--random N] [--changed N] [--joined N] [--edits N] [--kinds L] [--telling L] [--opened L] [--mail L] [--threads N]` compares;
//! `driver DOCS --sample N` prints the fixed list. DOCS is the folder of ENGINE.md, RULES.md and DIFFERENCES.md.

mod compare;
mod docs;
mod library;
mod sample;
mod sets;

use compare::{compare, compare_edits, compare_kinds, Calls, ResolvedTally, Tally};
use expected::Way;
use notes::chance::Chance;
use notes::{made, tables};
use sets::Set;
use std::path::Path;
use std::sync::Mutex;
use std::time::Instant;

struct Options {
    docs: String,
    random: usize,
    changed: usize,
    joined: usize,
    edits: usize,
    kinds: usize,
    telling: usize,
    opened: usize,
    mail: usize,
    threads: usize,
    sample: Option<usize>,
}

fn options() -> Options {
    let mut args = std::env::args().skip(1);
    let docs = args.next().expect("the folder of the documents");
    let mut options = Options {
        docs,
        random: 205_000,
        changed: 100_000,
        joined: 100_000,
        edits: 1_000_000,
        kinds: 3,
        telling: 5,
        opened: 4,
        mail: 5,
        threads: 1,
        sample: None,
    };
    while let Some(arg) = args.next() {
        let number = args
            .next()
            .and_then(|n| n.parse().ok())
            .unwrap_or_else(|| panic!("{}: a number", arg));
        match arg.as_str() {
            "--random" => options.random = number,
            "--changed" => options.changed = number,
            "--joined" => options.joined = number,
            "--edits" => options.edits = number,
            "--kinds" => options.kinds = number,
            "--telling" => options.telling = number,
            "--opened" => options.opened = number,
            "--mail" => options.mail = number,
            "--threads" => options.threads = number.max(1),
            "--sample" => options.sample = Some(number),
            _ => panic!("not an option: {}", arg),
        }
    }
    options
}

/// Ends the program at a difference that is not named.
fn all_same<T>(result: Result<T, String>) -> T {
    result.unwrap_or_else(|what| {
        println!("DIFFERENCE\n{}", what);
        std::process::exit(1)
    })
}

/// A part of the run: `work` is done by each thread for its share. The first failure ends the program.
fn part(title: &str, threads: usize, work: impl Fn(usize, &mut Tally) -> Result<(), String> + Sync) -> Tally {
    let began = Instant::now();
    let all = Mutex::new(Tally::default());
    std::thread::scope(|scope| {
        for thread in 0..threads {
            let (all, work) = (&all, &work);
            scope.spawn(move || {
                let mut tally = Tally::default();
                all_same(work(thread, &mut tally));
                all.lock().unwrap().add(&tally);
            });
        }
    });
    let tally = all.into_inner().unwrap();
    report(title, &tally, began.elapsed().as_secs_f64());
    tally
}

fn report(title: &str, t: &Tally, seconds: f64) {
    println!("{title}: {} runs on notes, {:.1} s", t.notes, seconds);
    println!(
        "  {} bytes, {} calls of push and end ({} of them paused), {} steps (most in one note {}), {} events, {} kinds",
        t.bytes, t.calls, t.paused, t.steps, t.most_steps, t.events, t.kinds
    );
    println!(
        "  {} with a web span, {} with a mail span, {} of {} states called",
        t.with_web,
        t.with_mail,
        t.called.count_ones(),
        expected::machine::STATES
    );
    println!(
        "  place 1, `)` while open: met in {}; other spans in {}, only other steps in {}",
        t.open_met, t.open_spans, t.open_steps
    );
    println!(
        "  place 2, dot first: met in {}; place 3, Xmpp resource: met in {}",
        t.dot_met, t.resource_met
    );
    report_resolved("without links", &t.unmarked);
    report_resolved("with links", &t.marked);
}

/// In how many lists the published events are ours, in how many each place shows, and which places show together.
fn report_resolved(title: &str, t: &ResolvedTally) {
    let needed = || Way::ALL.iter().map(|way| way.places()).zip(t.needed);
    let shows = |place| needed().filter(|n| n.0.contains(&place)).map(|n| n.1).sum::<u64>();
    let together: Vec<String> = needed()
        .filter(|n| n.0.len() > 1)
        .map(|n| format!("{:?} in {}", n.0, n.1))
        .collect();
    println!(
        "  resolved {}: {} lists, {} links, {} events; the same in {}; place 1 shows in {}, 2 in {}, 3 in {}; together {}",
        title,
        t.lists,
        t.links,
        t.events,
        t.needed[0],
        shows(1),
        shows(2),
        shows(3),
        together.join(", ")
    );
}

/// One note, with a set, calls and links by chance.
fn by_chance(note: &[u8], sets: &[Set], chance: &mut Chance, tally: &mut Tally) -> Result<(), String> {
    let set = &sets[chance.below(4)];
    let calls = if chance.one_in(2) {
        Calls::one_push(note)
    } else {
        Calls::split(note, set, chance)
    };
    compare(note, set, &calls, chance, tally).map(drop)
}

/// All short notes of an alphabet behind an opening; each eighth in pieces and with a set in turn.
fn short(opening: &[u8], alphabet: &[u8], most: usize, sets: &[Set], share: (usize, usize), tally: &mut Tally) -> Result<(), String> {
    let (mut number, mut result) = (0, Ok(()));
    made::short(opening, alphabet, most, |note| {
        number += 1;
        if number % share.1 != share.0 || result.is_err() {
            return;
        }
        let mut chance = Chance::new(number as u64);
        result = compare(note, &sets[1], &Calls::one_push(note), &mut chance, tally).map(drop);
        if number % 8 == 0 && result.is_ok() {
            let set = &sets[chance.below(4)];
            let calls = Calls::split(note, set, &mut chance);
            result = compare(note, set, &calls, &mut chance, tally).map(drop);
        }
    });
    result
}

fn main() {
    let options = options();
    let (sets, threads) = (sets::sets(), options.threads);
    let (rows, passed_by) = tables::rows(Path::new(&options.docs));
    if let Some(count) = options.sample {
        sample::print(count, &rows, &sets);
        return;
    }
    println!("proved reader: {}", if library::LINKED { "linked" } else { "not linked" });
    for row in &passed_by {
        println!("not understood: {}", row);
    }
    if library::LINKED {
        all_same(library::refusals());
    }
    let mut all = Tally::default();
    let began = Instant::now();

    println!("rows of the documents: {}", rows.len());
    all.add(&part("notes of the documents, as their rows say", 1, |_, tally| {
        rows.iter().try_for_each(|row| docs::check(row, &sets, tally))
    }));
    all.add(&part("notes of the documents, all sets, in pieces", 1, |_, tally| {
        rows.iter().enumerate().try_for_each(|(i, row)| {
            (0..32).try_for_each(|k| {
                let mut chance = Chance::new((i * 32 + k) as u64);
                let calls = Calls::split(&row.note, &sets[k % 4], &mut chance);
                compare(&row.note, &sets[k % 4], &calls, &mut chance, tally).map(drop)
            })
        })
    }));
    all.add(&part("the notes known to need the most steps", 1, |_, tally| {
        made::worst()
            .iter()
            .try_for_each(|note| compare(note, &sets[1], &Calls::one_push(note), &mut Chance::new(0), tally).map(drop))
    }));
    all.add(&part(
        &format!("all notes up to {} bytes over {} bytes", options.telling, made::TELLING.len()),
        threads,
        |thread, tally| short(b"", made::TELLING, options.telling, &sets, (thread, threads), tally),
    ));
    let opened = format!(
        "all notes of {} openings and up to {} bytes over {} bytes",
        made::OPENINGS.len(),
        options.opened,
        made::FEWER.len()
    );
    all.add(&part(&opened, threads, |thread, tally| {
        made::OPENINGS
            .iter()
            .try_for_each(|opening| short(opening, made::FEWER, options.opened, &sets, (thread, threads), tally))
    }));
    let mail = format!(
        "all notes of {} openings with mail and up to {} bytes over {} bytes",
        made::MAIL_OPENINGS.len(),
        options.mail,
        made::MAIL_BYTES.len()
    );
    all.add(&part(&mail, threads, |thread, tally| {
        made::MAIL_OPENINGS
            .iter()
            .try_for_each(|opening| short(opening, made::MAIL_BYTES, options.mail, &sets, (thread, threads), tally))
    }));
    all.add(&part("notes of the documents, changed by chance", threads, |thread, tally| {
        (thread..options.changed).step_by(threads).try_for_each(|i| {
            let mut chance = Chance::new(1 << 40 | i as u64);
            let note = made::changed(&rows[i % rows.len()].note, &mut chance);
            by_chance(&note, &sets, &mut chance, tally)
        })
    }));
    let texts: Vec<&[u8]> = rows.iter().map(|row| row.note.as_slice()).collect();
    all.add(&part("notes of the documents, joined", threads, |thread, tally| {
        (thread..options.joined).step_by(threads).try_for_each(|i| {
            let mut chance = Chance::new(8 << 40 | i as u64);
            let note = made::joined(&texts, &mut chance);
            by_chance(&note, &sets, &mut chance, tally)
        })
    }));
    all.add(&part("structured notes of every length", threads, |thread, tally| {
        (thread..options.random).step_by(threads).try_for_each(|i| {
            let mut chance = Chance::new(2 << 40 | i as u64);
            let note = made::structured(i % (made::LONGEST + 1), &mut chance);
            by_chance(&note, &sets, &mut chance, tally)
        })
    }));

    let began_kinds = Instant::now();
    let mut kinds = Tally::default();
    for set in &sets {
        made::for_kinds(options.kinds, |note| all_same(compare_kinds(note, set, &mut kinds)));
    }
    println!(
        "kinds at every place of short notes: {}, {:.1} s",
        kinds.kinds,
        began_kinds.elapsed().as_secs_f64()
    );

    // Edits: the published map panics where ours refuses, so its messages are kept quiet.
    std::panic::set_hook(Box::new(|_| {}));
    let refused = (0..options.edits).filter(|i| all_same(compare_edits(&mut Chance::new(3 << 40 | *i as u64))));
    println!("lists of edits: {}, of which {} are refused", options.edits, refused.count());
    let _ = std::panic::take_hook();

    report("in all", &all, began.elapsed().as_secs_f64());
    println!("no difference but the named ones");
}
