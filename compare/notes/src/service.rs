//! Ordinary service notes, of the sort that a workshop keeps.

use crate::chance::Chance;

const DONE: [&str; 12] = [
    "Replaced the clock battery",
    "Checked the firmware of the watch unit",
    "Found the housing cracked",
    "Cleaned the contacts",
    "Swapped both fan units",
    "Waited for parts until noon",
    "Measured the supply at the header (4.97 V)",
    "Set the time by hand",
    "Tightened what was loose",
    "Reset the counter twice",
    "Had the customer sign",
    "Went over the whole harness",
];
const WHERE: [&str; 8] = [
    " in bay 4",
    " on unit 4471-B",
    " at the north gate",
    "",
    " (second time this week)",
    " \u{2014} see below",
    " for order 20318",
    " while it was hot",
];
const HOSTS: [&str; 8] = [
    "www.clock.example",
    "https://docs.stores.example",
    "http://parts.example.org",
    "www.watch-house.example",
    "https://wiki.example.net",
    "http://192.0.2.14",
    "https://service.caf\u{e9}.example",
    "WWW.Example.COM",
];
const PATHS: [&str; 10] = [
    "",
    "/",
    "/rev-b",
    "/units/4471?log=full&rev=b",
    "/how_to/replace#battery",
    "/a/b/c.html",
    "/q?x=1;y=2",
    "/(rev-b)",
    "/notes/2031_07_16.txt",
    "/~stores/list",
];
const PEOPLE: [&str; 8] = [
    "rtc@stores.example",
    "hello@world.com",
    "mailto:bay4@house.example",
    "w.hart+parts@example.org",
    "xmpp:desk@chat.example",
    "stock_keeper@bay-4.example.net",
    "the desk",
    "Ms Whitlow",
];
const ENDS: [&str; 6] = [".", ".", ";", "!", "", "..."];
const BREAKS: [&str; 6] = [" ", " ", "\n", "\r\n", "\n\n", "\n\t- "];

/// A note of one to eight sentences.
pub fn note(number: u64) -> Vec<u8> {
    let mut chance = Chance::new(6 << 40 | number);
    let mut note = String::new();
    for _ in 0..1 + chance.below(8) {
        let mut add = |text: &str| note.push_str(text);
        add(chance.pick(&DONE));
        add(chance.pick(&WHERE));
        match chance.below(6) {
            0 | 1 => {
                add([", see ", ": ", " (", " as in "][chance.below(4)]);
                add(chance.pick(&HOSTS));
                add(chance.pick(&PATHS));
            }
            2 | 3 => {
                add(", ask ");
                add(chance.pick(&PEOPLE));
            }
            _ => {}
        }
        add(chance.pick(&ENDS));
        add(chance.pick(&BREAKS));
    }
    let mut note = note.into_bytes();
    note.truncate(crate::made::LONGEST);
    note
}
