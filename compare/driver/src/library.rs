//! The proved reader, through the C functions of its static library. Without the library, nothing is asked.

#[cfg(reader_library)]
mod c {
    extern "C" {
        pub fn read_note(
            note: *const u8,
            note_len: usize,
            ranges: *const u32,
            ranges_len: usize,
            pushes: *const u64,
            pushes_len: usize,
            links: *const u64,
            links_len: usize,
            out: *mut u64,
            out_len: usize,
        ) -> u64;
        pub fn kinds_of(note: *const u8, note_len: usize, ranges: *const u32, ranges_len: usize, out: *mut u8, out_len: usize) -> u64;
    }
}

pub const LINKED: bool = cfg!(reader_library);

/// What `read_note` writes, or the refusal's number and place.
#[cfg(reader_library)]
pub fn read_note(note: &[u8], ranges: &[u32], pushes: &[u64], links: &[u64]) -> Result<Vec<u64>, (u64, u64)> {
    // Two numbers for each call; and twice a count and six for each of two events a byte, the second time of two events
    // a link, too.
    let mut out = vec![0; pushes.len() + 4 + 24 * note.len() + 6 * links.len()];
    let written = unsafe {
        c::read_note(
            note.as_ptr(),
            note.len(),
            ranges.as_ptr(),
            ranges.len(),
            pushes.as_ptr(),
            pushes.len(),
            links.as_ptr(),
            links.len(),
            out.as_mut_ptr(),
            out.len(),
        )
    };
    if written >> 63 == 1 {
        return Err((written >> 32 & 0x7FFF_FFFF, written & 0xFFFF_FFFF));
    }
    out.truncate(written as usize);
    Ok(out)
}

#[cfg(not(reader_library))]
pub fn read_note(_: &[u8], _: &[u32], _: &[u64], _: &[u64]) -> Result<Vec<u64>, (u64, u64)> {
    unreachable!("no library is linked")
}

#[cfg(reader_library)]
pub fn kinds_of(note: &[u8], ranges: &[u32]) -> Vec<u8> {
    let mut out = vec![255; note.len() + 1];
    unsafe {
        c::kinds_of(
            note.as_ptr(),
            note.len(),
            ranges.as_ptr(),
            ranges.len(),
            out.as_mut_ptr(),
            out.len(),
        )
    };
    out
}

#[cfg(not(reader_library))]
pub fn kinds_of(_: &[u8], _: &[u32]) -> Vec<u8> {
    unreachable!("no library is linked")
}

/// Calls that are refused, on a note of letters and on one of line endings: the note, the pushes, the links, and the
/// refusal. The place is 0.
fn refused() -> Vec<(Vec<u8>, Vec<u64>, Vec<u64>, u64)> {
    let letters = |length, pushes: &[u64], number| (vec![b'a'; length], pushes.to_vec(), vec![], number);
    let lines = |links: &[u64], number| (vec![b'\n'; 66], vec![66, 999], links.to_vec(), number);
    let each: Vec<u64> = (0..132).collect();
    vec![
        letters(1025, &[1025, u64::MAX], 1),
        letters(2, &[2, 0], 5),
        letters(2, &[3, 9], 6),
        letters(2, &[2, 9, 1, 9], 6),
        letters(2, &[1, 9], 7),
        letters(2, &[2, 2], 7),
        letters(2, &[], 7),
        lines(&[1, 3], 9),
        lines(&[0, 2], 9),
        lines(&[3, 2], 9),
        lines(&[2, 2], 9),
        lines(&[0, 132], 9),
        lines(&[132, 133], 9),
        lines(&[u64::MAX, u64::MAX], 9),
        lines(&[0, 1, 0, 1], 9),
        lines(&[0, 3, 2, 5], 9),
        lines(&each[..130], 10),
        // A run that cannot be marked is told before the number of links.
        lines(&[&each[..128], &[0, 1]].concat(), 9),
    ]
}

pub fn refusals() -> Result<(), String> {
    for (note, pushes, links, number) in refused() {
        let answer = read_note(&note, &[], &pushes, &links);
        if answer != Err((number, 0)) {
            return Err(format!(
                "{} bytes, pushes {:?}, links {:?}: refusal {} expected, got {:?}",
                note.len(),
                pushes,
                links,
                number,
                answer
            ));
        }
    }
    Ok(())
}
