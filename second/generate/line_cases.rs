//! Lines for the replay program at the limits of what it can read, and past them.

use crate::hex;
use crate::trunk::script::BYTES_MAX;

/// Unreadable wherever they stand.
const BAD_LINES: [&str; 88] = [
    "",
    " ",
    "station",
    "station 0",
    "station 0 0 1 24 0",
    "station 0 0 1 24 ",
    "station 0 0 1  24",
    "station 0 0  1 24",
    "station 0 0 1 -",
    "station 0 0 1 -1",
    "station 0 0 1 65536",
    "station - 0",
    "station 0 -1",
    "station 256 0",
    "station 0 256",
    "station 0 0 ",
    "station 0 0 -",
    "station 0 0 -1",
    "station 0 0 256",
    "station 0  0 1",
    "station 0 0  1",
    "station 0  1",
    "station 0 0 1 ",
    "store",
    "store 4097",
    "store 1536 0",
    "store -1",
    "poke",
    "poke ",
    "poke 0",
    "poke 0 ",
    "poke 0 0",
    "poke 0 0g",
    "poke 0 00 00",
    "poke 0  00",
    "poke - 00",
    "poke -1 00",
    "poke 00",
    "poke 1536 00",
    "poke 1535 0000",
    "poke 1537 -",
    "poke 18446744073709551615 00",
    "offer",
    "offer ",
    "offer  00",
    "offer 00 ",
    " offer 00",
    "offer 00 00",
    "offer 0",
    "offer 000",
    "offer 0A",
    "offer 0g",
    "offer 0x00",
    "offer --",
    "offer -00",
    "offer 00-",
    "offer é",
    "Offer 00",
    "offers 00",
    "offer\t00",
    "offer 00\r",
    "send",
    "send 0",
    "send 0 185 185",
    "send 0 4097",
    "send 4294967296 185",
    "send 18446744073709551616 185",
    "send -1 185",
    "send +1 185",
    "send 1x 185",
    "send x 185",
    "send 0 -",
    "send  185",
    "near",
    "near 2000000000 5",
    "near 20000000000",
    "far - 180",
    "far - 180 5 5",
    "far - 4097 5",
    "far - 180 4097",
    "far 180 5",
    "clock",
    "clock ",
    "clock -1",
    "clock 1 2",
    "clock 18446744073709551616",
    "clock 0x10",
    "bad line 1",
];
/// Unreadable as the first line, as the second, and later.
const MISPLACED: [&[&str]; 3] = [
    &[
        "store 1536",
        "poke 0 00",
        "poke 0 -",
        "offer -",
        "send 0 0",
        "near -",
        "far - 0 0",
        "clock 0",
    ],
    &["station 1 5", "station 1 5 1", "station 1 5 1 96"],
    &[
        "station 1 5",
        "station 1 5 1",
        "station 1 5 1 96",
        "store 1536",
    ],
];
/// What stands before a first line, a second and a later one.
const BEFORE: [&str; 3] = ["", "station 1 5\n", "station 1 5\nclock 1\n"];
/// What stands after them, and is not read any more.
const AFTER: &str = "\nclock 2\n";

/// Lines with the largest numbers that they may have, and `{}` for the most bytes.
const AT_LIMITS: &str = "\
station 255 255 255 65535
store 4096
poke 0 {}
poke 4095 ff
poke 4096 -
offer {}
send 4294967295 4096
near {}
far {} 4096 4096
clock 18446744073709551615
";

/// First lines alone: the numbers of exchanges and the limits at the ends of their range and past
/// them, lines that leave them out, and numbers with zeros before them.
const FIRST_LINES: [&str; 19] = [
    "station 4 127 0",
    "station 4 127 1",
    "station 4 127 16",
    "station 4 127 17",
    "station 4 127 255",
    "station 4 127",
    "station 5 0 16",
    "station 004 0127 0000000016",
    "station 4 127 16 0",
    "station 4 127 16 23",
    "station 4 127 16 24",
    "station 4 127 16 60",
    "station 4 127 16 96",
    "station 4 127 16 600",
    "station 4 127 16 601",
    "station 4 127 16 65535",
    "station 4 127 17 96",
    "station 5 127 16 96",
    "station 4 127 16 00000000600",
];

/// Lengths of a store, for writes up to its end and past it.
const STORES: [usize; 5] = [0, 1, 1_535, 1_536, BYTES_MAX];

/// Scripts at the limits of what can be read, the empty one among them, and just past them.
pub fn scripts() -> Vec<String> {
    let most = "00".repeat(BYTES_MAX);
    let mut scripts = vec![
        String::new(),
        BEFORE[1].to_string(),
        AT_LIMITS.replace("{}", &most),
    ];
    scripts.extend(FIRST_LINES.map(|line| format!("{line}\n")));
    for (before, misplaced) in BEFORE.into_iter().zip(MISPLACED) {
        let bad_lines = BAD_LINES.iter().chain(misplaced);
        scripts.extend(bad_lines.map(|line| format!("{before}{line}{AFTER}")));
    }
    scripts.extend(STORES.into_iter().flat_map(past_a_store));
    for line in ["offer {}", "near {}", "far {} 180 5", "poke 0 {}"] {
        for too_long in [format!("{most}00"), most.repeat(20)] {
            let line = line.replace("{}", &too_long);
            scripts.push(format!("{}{line}{AFTER}", BEFORE[2]));
        }
    }
    scripts
}

/// Somebody else writes a store of this length up to its end, then past it.
fn past_a_store(size: usize) -> [String; 3] {
    let whole = hex::encode(&vec![0x20; size]);
    let before = format!("{}store {size}\npoke 0 {whole}\npoke {size} -\n", BEFORE[1]);
    let past = [
        format!("{size} 00"),
        format!("{} -", size + 1),
        format!("0 {}00", whole.trim_start_matches('-')),
    ];
    past.map(|past| format!("{before}poke {past}{AFTER}"))
}
