// The Rust and ours on the same cases, which all have the same tables:
//
//     speed rust PASSES < CASES     the Rust reads each frame PASSES times; prints the nanoseconds that took
//     speed ours PASSES < CASES     the same for ours, by libadjagosk.a
//     speed agree < CASES           whether both accept the same frames; prints how many frames there are, how many are
//                                   accepted, and their bytes

use std::hint::black_box;

#[repr(C)]
struct Numbers {
    refused: u64,
    cut: bool,
    reach: usize,
    marks: u64,
    records: usize,
    need: usize,
    lacked: usize,
}

// crates/adjagosk/include/adjagosk.h
extern "C" {
    fn adjagosk_apdu(f: *const u8, n: usize, down: *const u8, d: usize, up: *const u8, u: usize, words: *mut u64, w: usize) -> Numbers;
    fn adjagosk_pdus(f: *const u8, n: usize, direction: u64, down: *const u8, d: usize, up: *const u8, u: usize, words: *mut u64, w: usize) -> Numbers;
    fn adjagosk_cm(f: *const u8, n: usize, direction: u64, words: *mut u64, w: usize) -> Numbers;
    fn adjagosk_acse(f: *const u8, n: usize, words: *mut u64, w: usize) -> Numbers;
}

enum Entry {
    Apdu,
    Down,
    Up,
    CmGround,
    CmLogon,
    Acse,
}

struct Corpus {
    down: Vec<u8>,
    up: Vec<u8>,
    frames: Vec<(Entry, Vec<u8>)>,
}

fn corpus() -> Corpus {
    let mut all = Corpus { down: Vec::new(), up: Vec::new(), frames: Vec::new() };
    for line in std::io::stdin().lock().lines() {
        let line = line.expect("a line");
        let words: Vec<&str> = line.split_ascii_whitespace().collect();
        let [entry, direction, down, up, frame, _room] = words[..] else {
            panic!("not a case: {line}");
        };
        let entry = match (entry, direction) {
            ("apdu", _) => Entry::Apdu,
            ("pdus", "0") => Entry::Down,
            ("pdus", "1") => Entry::Up,
            ("cm", "1") => Entry::CmGround,
            ("cm", "0") => Entry::CmLogon,
            ("acse", _) => Entry::Acse,
            other => panic!("no such entry: {other:?}"),
        };
        let (down, up) = (hex(down), hex(up));
        if all.frames.is_empty() {
            (all.down, all.up) = (down, up);
        } else {
            assert!(all.down == down && all.up == up, "the tables are the same in all cases");
        }
        all.frames.push((entry, hex(frame)));
    }
    all
}

#[inline(never)]
fn rust(entry: &Entry, frame: &[u8]) -> Option<Value> {
    match entry {
        Entry::Apdu => parse_apdu(frame),
        Entry::Down => parse_pdus(frame, true),
        Entry::Up => parse_pdus(frame, false),
        Entry::CmGround => parse_cm_ground(frame),
        Entry::CmLogon => parse_cm_logon(frame),
        Entry::Acse => parse_acse_apdu(frame),
    }
}

#[inline(never)]
fn ours(entry: &Entry, frame: &[u8], down: &[u8], up: &[u8], words: &mut [u64]) -> Numbers {
    let (f, n) = (frame.as_ptr(), frame.len());
    let (d, dn, u, un) = (down.as_ptr(), down.len(), up.as_ptr(), up.len());
    let (w, wn) = (words.as_mut_ptr(), words.len());
    unsafe {
        match entry {
            Entry::Apdu => adjagosk_apdu(f, n, d, dn, u, un, w, wn),
            Entry::Down => adjagosk_pdus(f, n, 0, d, dn, u, un, w, wn),
            Entry::Up => adjagosk_pdus(f, n, 1, d, dn, u, un, w, wn),
            Entry::CmGround => adjagosk_cm(f, n, 1, w, wn),
            Entry::CmLogon => adjagosk_cm(f, n, 0, w, wn),
            Entry::Acse => adjagosk_acse(f, n, w, wn),
        }
    }
}

fn agree(all: &Corpus, words: &mut [u64]) {
    let mut accepted = 0;
    let mut size = 0;
    for (entry, frame) in &all.frames {
        begin(frame);
        let theirs = rust(entry, frame).is_some() && !seen().lacked;
        let answer = ours(entry, frame, &all.down, &all.up, words);
        assert!(theirs == (answer.refused == 0), "not the same: {frame:02x?}");
        accepted += theirs as usize;
        size += frame.len();
    }
    println!("{} {accepted} {size}", all.frames.len());
}

fn main() {
    let arguments: Vec<String> = std::env::args().skip(1).collect();
    let words: Vec<&str> = arguments.iter().map(|a| a.as_str()).collect();
    let names: Vec<&'static str> = (0..256).map(|i| &*i.to_string().leak()).collect();
    let all = corpus();
    lend(&DOWNLINK_ELEMENTS, &all.down, &names, &[]);
    lend(&UPLINK_ELEMENTS, &all.up, &names, &[]);
    let mut lent = vec![0u64; 65536];
    let (side, passes) = match words[..] {
        ["agree"] => return agree(&all, &mut lent),
        [side @ ("rust" | "ours"), passes] => (side, passes.parse().expect("a number of passes")),
        _ => panic!("speed rust PASSES, speed ours PASSES or speed agree"),
    };
    let start = std::time::Instant::now();
    for _ in 0..passes {
        for (entry, frame) in &all.frames {
            if side == "rust" {
                black_box(rust(entry, frame));
            } else {
                black_box(ours(entry, frame, &all.down, &all.up, &mut lent));
            }
        }
    }
    println!("{}", start.elapsed().as_nanos());
}
