// The cases: a line each, ENTRY DIR DOWNTABLE UPTABLE FRAME ROOM; tables and frame in hexadecimal, `-` for none.

use std::io::{BufRead, Write};

struct Case {
    entry: String,
    downlink: bool,
    frame: Vec<u8>,
}

fn hex(text: &str) -> Vec<u8> {
    if text == "-" {
        return Vec::new();
    }
    let digit = |c: u8| (c as char).to_digit(16).expect("hexadecimal") as u8;
    text.as_bytes().chunks(2).map(|c| digit(c[0]) << 4 | digit(c[1])).collect()
}

// What document 01 refuses before anything is read; the Rust has no such limits.
fn outside(entry: &str, direction: &str, down: &[u8], up: &[u8], frame: &[u8]) -> bool {
    let fits = |table: &[u8]| (1..=256).contains(&table.len());
    let tables = entry == "apdu" || entry == "pdus";
    frame.len() > 65536
        || (tables && !(fits(down) && fits(up)))
        || ((entry == "pdus" || entry == "cm") && direction != "0" && direction != "1")
}

// The phrases of a direction: the lines of a file that a variable names, none where it is not set.
fn phrases(variable: &str) -> Vec<&'static str> {
    let text = std::env::var(variable).map(|path| std::fs::read_to_string(path).expect("phrases")).unwrap_or_default();
    text.leak().lines().collect()
}

// A line of output for each line of input.
fn each_case(answer: impl Fn(&Case) -> String) {
    let names: Vec<&'static str> = (0..256).map(|i| &*i.to_string().leak()).collect();
    let (down_phrases, up_phrases) = (phrases("ADJAGOSK_DOWN_PHRASES"), phrases("ADJAGOSK_UP_PHRASES"));
    let input = std::io::stdin().lock();
    let mut output = std::io::BufWriter::new(std::io::stdout().lock());
    for line in input.lines() {
        let line = line.expect("a line");
        let words: Vec<&str> = line.split_ascii_whitespace().collect();
        let [entry, direction, down, up, frame, _room] = words[..] else {
            panic!("not a case: {line}");
        };
        let (down, up, frame) = (hex(down), hex(up), hex(frame));
        let text = if outside(entry, direction, &down, &up, &frame) {
            "outside".to_string()
        } else {
            if entry == "apdu" || entry == "pdus" {
                lend(&DOWNLINK_ELEMENTS, &down, &names, &down_phrases);
                lend(&UPLINK_ELEMENTS, &up, &names, &up_phrases);
            }
            answer(&Case { entry: entry.to_string(), downlink: direction == "0", frame })
        };
        writeln!(output, "{text}").expect("output");
    }
}
