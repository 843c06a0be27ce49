// What document 01 puts in: the lent tables, the list of bytes, and what is not supplied.
// One thread reads one case after another, so plain cells do.

use std::cell::{Cell, UnsafeCell};

type Row = (&'static str, &'static str, &'static str);

struct Table(UnsafeCell<Vec<Row>>);

unsafe impl Sync for Table {}

impl std::ops::Deref for Table {
    type Target = [Row];
    fn deref(&self) -> &[Row] {
        unsafe { &*self.0.get() }
    }
}

static DOWNLINK_ELEMENTS: Table = Table(UnsafeCell::new(Vec::new()));
static UPLINK_ELEMENTS: Table = Table(UnsafeCell::new(Vec::new()));

// The types by 01's bytes; any other byte has a type without a reader.
const TYPES: [&str; 17] = [
    "NULL",
    "Position",
    "Speed",
    "SpeedType",
    "SpeedTypeSpeedTypeSpeedType",
    "LevelType",
    "Degrees",
    "Frequency",
    "Code",
    "TrafficType",
    "ClearanceType",
    "ErrorInformation",
    "FacilityFunction",
    "ProcedureName",
    "Runway",
    "LatitudeLongitude",
    "DepartureClearance",
];

// An element's name is its index in decimal. Its phrase is the line of this index of the phrases, and empty where there is none.
fn lend(table: &Table, bytes: &[u8], names: &[&'static str], phrases: &[&'static str]) {
    let rows = unsafe { &mut *table.0.get() };
    rows.clear();
    for (i, &byte) in bytes.iter().enumerate() {
        let ty = TYPES.get(byte as usize).copied().unwrap_or("without a reader");
        rows.push((names[i], ty, phrases.get(i).copied().unwrap_or("")));
    }
}

// The five types that the text has readers for and its dispatch no name; the text's own dispatch for the others.
fn read_argument(p: &mut Per, ty: &str) -> Option<Vec<String>> {
    Some(match ty {
        "SpeedType" => vec![read_speed_type(p)?],
        "LevelType" => vec![read_level_type(p)?],
        "FacilityFunction" => vec![read_facility_function(p)?],
        "Runway" => vec![read_runway(p)?],
        "LatitudeLongitude" => vec![read_latlon(p)?],
        _ => return read_argument_as_written(p, ty),
    })
}

// Since the case began: whether a read passed the frame's end, whether an unsupplied item was reached,
// how many bits of the frame had been taken when that happened, and how many in all.
#[derive(Clone, Copy, Default)]
struct Seen {
    frame_bits: usize,
    passed: bool,
    lacked: bool,
    lacked_late: bool,
    lacked_at: usize,
    reach: usize,
}

thread_local! {
    static SEEN: Cell<Seen> = Cell::new(Seen::default());
}

fn begin(frame: &[u8]) {
    SEEN.with(|s| s.set(Seen { frame_bits: frame.len() * 8, ..Seen::default() }));
}

fn seen() -> Seen {
    SEEN.with(|s| s.get())
}

fn unsupplied<T>() -> Option<T> {
    let mut now = seen();
    if !now.lacked {
        now.lacked = true;
        now.lacked_late = now.passed;
        now.lacked_at = now.reach;
    }
    SEEN.with(|s| s.set(now));
    None
}

fn read_distance(_: &mut Per) -> Option<String> {
    unsupplied()
}

fn read_facility_designation(_: &mut Per) -> Option<String> {
    unsupplied()
}

fn read_ap_address(_: &mut Per) -> Option<Value> {
    unsupplied()
}
