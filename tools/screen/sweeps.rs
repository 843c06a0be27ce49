// The text of every raw value of each number in an argument, by the Rust's own readers, which `run` puts above this text.
// Fields and raw values stand in the order of crates/shown_values. With the argument `all` every raw value is shown, without it the first two and the last two.

type Reader = fn(&mut Per) -> Option<String>;

// What is read: bits before the raw value and behind it, each a number and how many bits it has.
struct Sweep {
    name: &'static str,
    read: Reader,
    before: &'static [(u64, usize)],
    width: usize,
    behind: &'static [(u64, usize)],
}

const fn sweep(
    name: &'static str,
    read: Reader,
    before: &'static [(u64, usize)],
    width: usize,
    behind: &'static [(u64, usize)],
) -> Sweep {
    Sweep { name, read, before, width, behind }
}

const SWEEPS: [Sweep; 32] = [
    sweep("speed, kt IAS", read_speed, &[(0, 3)], 9, &[]),
    sweep("speed, km/h IAS", read_speed, &[(1, 3)], 10, &[]),
    sweep("speed, kt TAS", read_speed, &[(2, 3)], 11, &[]),
    sweep("speed, km/h TAS", read_speed, &[(3, 3)], 12, &[]),
    sweep("speed, kt GS", read_speed, &[(4, 3)], 12, &[]),
    sweep("speed, km/h GS", read_speed, &[(5, 3)], 13, &[]),
    sweep("speed, Mach", read_speed, &[(6, 3)], 12, &[]),
    sweep("level, feet", read_level_type, &[(0, 2)], 13, &[]),
    sweep("level, metres", read_level_type, &[(1, 2)], 15, &[]),
    sweep("level, flight level", read_level_type, &[(2, 2)], 10, &[]),
    sweep("level, tens of metres", read_level_type, &[(3, 2)], 12, &[]),
    sweep("degrees, magnetic", read_degrees, &[(0, 1)], 9, &[]),
    sweep("degrees, true", read_degrees, &[(1, 1)], 9, &[]),
    sweep("frequency, HF", read_frequency, &[(0, 2)], 15, &[]),
    sweep("frequency, VHF", read_frequency, &[(1, 2)], 12, &[]),
    sweep("frequency, UHF", read_frequency, &[(2, 2)], 13, &[]),
    sweep("runway, left", read_runway, &[], 6, &[(0, 2)]),
    sweep("runway, right", read_runway, &[], 6, &[(1, 2)]),
    sweep("runway, centre", read_runway, &[], 6, &[(2, 2)]),
    sweep("runway, no side", read_runway, &[], 6, &[(3, 2)]),
    sweep("latitude, thousandths", read_latlon, &[(2, 2), (0, 2)], 17, &[(0, 1)]),
    sweep("latitude, degrees and minutes: degrees", read_latlon, &[(2, 2), (1, 2)], 7, &[(0, 13), (1, 1)]),
    sweep("latitude, degrees and minutes: hundredths", read_latlon, &[(2, 2), (1, 2), (45, 7)], 13, &[(1, 1)]),
    sweep("latitude, seconds: degrees", read_latlon, &[(2, 2), (2, 2)], 7, &[(0, 12), (0, 1)]),
    sweep("latitude, seconds: minutes", read_latlon, &[(2, 2), (2, 2), (45, 7)], 6, &[(0, 6), (0, 1)]),
    sweep("latitude, seconds: seconds", read_latlon, &[(2, 2), (2, 2), (45, 7), (30, 6)], 6, &[(0, 1)]),
    sweep("longitude, thousandths", read_latlon, &[(1, 2), (0, 2)], 18, &[(0, 1)]),
    sweep("longitude, degrees and minutes: degrees", read_latlon, &[(1, 2), (1, 2)], 8, &[(0, 13), (1, 1)]),
    sweep("longitude, degrees and minutes: hundredths", read_latlon, &[(1, 2), (1, 2), (45, 8)], 13, &[(1, 1)]),
    sweep("longitude, seconds: degrees", read_latlon, &[(1, 2), (2, 2)], 8, &[(0, 12), (0, 1)]),
    sweep("longitude, seconds: minutes", read_latlon, &[(1, 2), (2, 2), (45, 8)], 6, &[(0, 6), (0, 1)]),
    sweep("longitude, seconds: seconds", read_latlon, &[(1, 2), (2, 2), (45, 8), (30, 6)], 6, &[(0, 1)]),
];

fn push(bits: &mut Vec<u8>, v: u64, n: usize) {
    for k in (0..n).rev() {
        bits.push(((v >> k) & 1) as u8);
    }
}

fn text(s: &Sweep, raw: u64) -> String {
    let mut bits = Vec::new();
    for &(v, n) in s.before {
        push(&mut bits, v, n);
    }
    push(&mut bits, raw, s.width);
    for &(v, n) in s.behind {
        push(&mut bits, v, n);
    }
    let bytes: Vec<u8> = bits
        .chunks(8)
        .map(|c| c.iter().enumerate().fold(0u8, |v, (i, &b)| v | (b << (7 - i))))
        .collect();
    let mut store = Vec::new();
    (s.read)(&mut Per::new(&bytes, &mut store)).expect("the Rust reads it")
}

fn main() {
    use std::io::Write;
    let all = std::env::args().nth(1).as_deref() == Some("all");
    let mut out = std::io::BufWriter::new(std::io::stdout());
    for s in &SWEEPS {
        let count = 1u64 << s.width;
        for raw in 0..count {
            if all || raw < 2 || count - raw < 3 {
                writeln!(out, "{}", text(s, raw)).unwrap();
            }
        }
        if all {
            eprintln!("{count} {}", s.name);
        }
    }
}
