//! Measures reading whole notes by the published sources and by the proved reader, in one process.
//!
//! `bench DOCS`: DOCS is the folder of ENGINE.md, RULES.md and DIFFERENCES.md. The house set is used. A turn of one
//! reader follows a turn of the other, and the best turn of each counts.

use notes::{made, service, tables};
use std::hint::black_box;
use std::path::Path;
use std::time::Duration;

const HOUSE: &[(u32, u32)] = &[(0x2010, 0x2027), (0x2030, 0x205E)];
const TURNS: usize = 15;
const TURN: Duration = Duration::from_millis(200);

/// The proved reader, through the C function of its static library.
#[cfg(reader_library)]
mod library {
    #[repr(C)]
    pub struct Reading {
        pub steps: u64,
        pub events: u64,
    }

    extern "C" {
        fn read_whole(note: *const u8, note_len: usize) -> Reading;
    }

    pub fn read(note: &[u8]) -> Reading {
        unsafe { read_whole(note.as_ptr(), note.len()) }
    }
}

/// Processor time of this thread: a busy machine stretches it less than the time on the wall.
fn spent() -> Duration {
    #[repr(C)]
    struct Time {
        seconds: i64,
        nanoseconds: i64,
    }
    extern "C" {
        fn clock_gettime(clock: i32, time: *mut Time) -> i32;
    }
    const THREAD: i32 = 3;
    let mut time = Time {
        seconds: 0,
        nanoseconds: 0,
    };
    assert_eq!(unsafe { clock_gettime(THREAD, &mut time) }, 0);
    Duration::new(time.seconds as u64, time.nanoseconds as u32)
}

/// One turn: rounds over all notes until the time is up. Notes in a second.
fn turn(notes: &[Vec<u8>], mut read: impl FnMut(&[u8])) -> f64 {
    let (began, mut count) = (spent(), 0);
    loop {
        for note in notes {
            read(note);
            count += 1;
        }
        let spent = spent() - began;
        if spent >= TURN {
            return f64::from(count) / spent.as_secs_f64();
        }
    }
}

fn measure(title: &str, notes: &[Vec<u8>]) {
    let bytes: usize = notes.iter().map(Vec::len).sum();
    let mut theirs = 0f64;
    #[cfg(reader_library)]
    let mut ours = 0f64;
    for _ in 0..TURNS {
        theirs = theirs.max(turn(notes, |note| {
            black_box(published::read_whole(black_box(note)));
        }));
        #[cfg(reader_library)]
        {
            ours = ours.max(turn(notes, |note| {
                black_box(library::read(black_box(note)).events);
            }));
        }
    }
    println!("{}: {} notes, {} bytes", title, notes.len(), bytes);
    println!("  published {:.1} notes a second", theirs);
    #[cfg(reader_library)]
    {
        let (mut steps, mut others) = (0, 0);
        for note in notes {
            let reading = library::read(note);
            steps += reading.steps;
            others += usize::from(reading.events != published::read_whole(note) as u64);
        }
        println!(
            "  proved    {:.1} notes a second, {} steps in all; another number of events on {} notes",
            ours, steps, others
        );
        println!("  proved / published: {:.2}", ours / theirs);
    }
}

fn main() {
    let docs = std::env::args().nth(1).expect("the folder of the documents");
    published::use_set(HOUSE);
    let ordinary: Vec<Vec<u8>> = (0..400).map(service::note).collect();
    let mut tried: Vec<Vec<u8>> = tables::rows(Path::new(&docs)).0.into_iter().map(|row| row.note).collect();
    tried.sort();
    tried.dedup();
    measure("ordinary service notes", &ordinary);
    measure("notes of the documents", &tried);
    for (i, note) in made::worst().into_iter().enumerate() {
        measure(&format!("worst note {}", i + 1), &[note]);
    }
}
