// How far the Rust read, and why it stopped, in document 01's words: `whole`, `cut`, or the number 4, 5 or 6, the reach,
// and the marks that these reads show: 1 for a ranged number above its range, 5 for a length's form.
// Of an accepted reading also, behind a `;`, each string that it took from the frame, as first bit + number of bits,
// and, behind another, each number that it read anywhere, as number of bits : value.
// A read at the frame's own level is told from one in an inner bit string by the window's length: an inner one is always shorter.

use std::cell::RefCell;

thread_local! {
    static STRINGS: RefCell<Vec<(usize, usize)>> = const { RefCell::new(Vec::new()) };
    static MARKS: Cell<u32> = const { Cell::new(0) };
    static NUMBERS: RefCell<Vec<(usize, u64)>> = const { RefCell::new(Vec::new()) };
}

impl Per<'_> {
    fn note(&self, good: bool) {
        let mut now = seen();
        if self.bits.len() != now.frame_bits {
            return;
        }
        if good {
            now.reach = self.pos;
        } else {
            now.passed = true;
        }
        SEEN.with(|s| s.set(now));
    }

    fn bit(&mut self) -> Option<u8> {
        let given = self.bit_as_written();
        self.note(given.is_some());
        NUMBERS.with(|s| s.borrow_mut().extend(given.map(|v| (1, v as u64))));
        given
    }

    fn uint(&mut self, n: usize) -> Option<u64> {
        let given = self.uint_as_written(n);
        self.note(given.is_some());
        NUMBERS.with(|s| s.borrow_mut().extend(given.map(|v| (n, v))));
        given
    }

    fn remaining_bytes(&mut self, nbits: usize) -> Option<Vec<u8>> {
        let given = self.remaining_bytes_as_written(nbits);
        self.note(given.is_some());
        if given.is_some() && self.bits.len() == seen().frame_bits {
            STRINGS.with(|s| s.borrow_mut().push((self.pos - nbits, nbits)));
        }
        given
    }

    fn constrained(&mut self, lo: i64, hi: i64) -> Option<i64> {
        let given = self.constrained_as_written(lo, hi);
        if given.is_some_and(|v| v > hi) {
            mark(1);
        }
        given
    }

    fn length_frag(&mut self) -> Option<(usize, bool)> {
        let before = self.pos;
        let given = self.length_frag_as_written();
        if given.is_some_and(|(n, more)| more || (n < 128 && self.pos - before == 16)) {
            mark(5);
        }
        given
    }
}

fn mark(number: u32) {
    MARKS.with(|s| s.set(s.get() | 1 << (number - 1)));
}

#[derive(Clone, Copy, PartialEq)]
enum End {
    Whole,
    Cut,
    RanOut,
    Bad,
    Lack,
}

use End::*;

fn read(frame: &[u8], reader: impl Fn(&[u8]) -> Option<Value>) -> (End, usize) {
    begin(frame);
    STRINGS.with(|s| s.borrow_mut().clear());
    NUMBERS.with(|s| s.borrow_mut().clear());
    MARKS.with(|s| s.set(0));
    let given = reader(frame).is_some();
    let now = seen();
    if now.lacked {
        return (if now.lacked_late { RanOut } else { Lack }, now.lacked_at);
    }
    let end = match (given, now.passed) {
        (true, false) => Whole,
        (true, true) => Cut,
        (false, true) => RanOut,
        (false, false) => Bad,
    };
    (end, now.reach)
}

// 01's combination of the two readings of parse_apdu.
fn both(frame: &[u8]) -> (End, usize) {
    let (down, p) = read(frame, |f| parse_pdus(f, true));
    if down != RanOut && down != Bad {
        return (down, p);
    }
    let (up, q) = read(frame, |f| parse_pdus(f, false));
    let end = match (down, up) {
        (Bad, _) => up,
        (_, Whole | Cut) => Cut,
        _ => RanOut,
    };
    (end, p.max(q))
}

fn answer(case: &Case) -> String {
    let frame = &case.frame;
    let (end, reach) = match case.entry.as_str() {
        "pdus" => read(frame, |f| parse_pdus(f, case.downlink)),
        "cm" if case.downlink => read(frame, parse_cm_logon),
        "cm" => read(frame, parse_cm_ground),
        "acse" => read(frame, parse_acse_apdu),
        "apdu" => both(frame),
        other => panic!("no such entry: {other}"),
    };
    let word = match end {
        Whole => "whole",
        Cut => "cut",
        RanOut => "4",
        Bad => "5",
        Lack => "6",
    };
    let mut line = format!("{word} {reach} {}", MARKS.with(|s| s.get()));
    if matches!(end, Whole | Cut) {
        line += ";";
        STRINGS.with(|s| s.borrow().iter().for_each(|(first, bits)| line += &format!(" {first}+{bits}")));
        line += ";";
        NUMBERS.with(|s| s.borrow().iter().for_each(|(bits, value)| line += &format!(" {bits}:{value}")));
    }
    line
}

fn main() {
    each_case(answer);
}
