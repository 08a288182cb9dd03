//! The fixed list: published answers on notes where no named difference shows.

use crate::compare::{compare, hex, numbers, row, Answers, Calls, Resolved, Tally};
use crate::sets::Set;
use expected::Way;
use notes::chance::Chance;
use notes::made;
use notes::tables::Row;

/// Allowance that no note uses up, in place of the largest number.
const AMPLE: u64 = 1_000_000_000;

/// A line: the note behind an `x`, the set, the number of pushes, each push, the number of links, each link, the number
/// of answers, the answers.
fn line(note: &[u8], set: usize, calls: &Calls, answers: &Answers, resolved: &Resolved) -> String {
    let given = numbers(&answers.pushes, answers.end, &answers.joined, &resolved.events);
    let links = row(&resolved.links);
    let mut numbers = vec![set as u64, calls.pushes.len() as u64];
    numbers.extend(calls.pushes.iter().flat_map(|push| [push.0 as u64, push.1]));
    numbers.push(resolved.links.len() as u64);
    numbers.extend(links);
    numbers.push(given.len() as u64);
    numbers.extend(given);
    let words = numbers.iter().map(|number| format!(" {}", number));
    format!("x{}{}", hex(note), words.collect::<String>())
}

/// Prints `count` lines: each note of the documents once, then in turn some of them joined, and structured notes whose
/// length class goes round.
pub fn print(count: usize, rows: &[Row], sets: &[Set]) {
    let (mut tally, mut lines, mut called, mut with_links) = (Tally::default(), Vec::<String>::new(), 0_u32, 0);
    let mut keep = |note: &[u8], set: usize, mut calls: Calls, chance: &mut Chance| {
        calls.pushes.iter_mut().for_each(|push| push.1 = push.1.min(AMPLE));
        calls.ends.clear();
        let answers = compare(note, &sets[set], &calls, chance, &mut tally).unwrap_or_else(|what| panic!("{}", what));
        let resolved = if chance.one_in(3) { &answers.unmarked } else { &answers.marked };
        if !answers.open_met && resolved.way == Way::OURS && lines.len() < count {
            let line = line(note, set, &calls, &answers, resolved);
            if !lines.contains(&line) {
                called |= answers.called;
                with_links += usize::from(!resolved.links.is_empty());
                lines.push(line);
            }
        }
        lines.len()
    };
    let mut of_documents = 0;
    for (i, row) in rows.iter().enumerate() {
        let mut chance = Chance::new(4 << 40 | i as u64);
        for set in [1, i % 4] {
            let calls = if set == 1 {
                Calls::one_push(&row.note)
            } else {
                Calls::split(&row.note, &sets[set], &mut chance)
            };
            of_documents = keep(&row.note, set, calls, &mut chance);
        }
    }
    const LENGTHS: [(usize, usize); 8] = [
        (0, 8),
        (8, 16),
        (16, 32),
        (32, 64),
        (64, 128),
        (128, 256),
        (256, 1023),
        (1024, 1025),
    ];
    let texts: Vec<&[u8]> = rows.iter().map(|row| row.note.as_slice()).collect();
    for i in 0.. {
        let mut chance = Chance::new(5 << 40 | i as u64);
        let (least, most) = LENGTHS[i / 2 % LENGTHS.len()];
        let note = if i % 2 == 0 {
            made::joined(&texts, &mut chance)
        } else {
            made::structured(least + chance.below(most - least), &mut chance)
        };
        let set = chance.below(4);
        let calls = if chance.one_in(3) {
            Calls::one_push(&note)
        } else {
            Calls::split(&note, &sets[set], &mut chance)
        };
        // Long rows of small pushes add little that short notes do not show.
        if calls.pushes.len() <= 40 && keep(&note, set, calls, &mut chance) == count {
            break;
        }
    }
    for line in &lines {
        println!("{}", line);
    }
    eprintln!(
        "{} lines, {} of them notes of the documents, {} with links, {} of {} states called, {} pauses",
        lines.len(),
        of_documents,
        with_links,
        called.count_ones(),
        expected::machine::STATES,
        tally.paused
    );
}
