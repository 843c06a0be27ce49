// What the Rust gives: `some` and the object, `none`, or `unsupplied` where it reached an item that 01 does not supply;
// for parse_apdu `unsupplied-up` where only the uplink reading did. `outside`: 01 refuses the case before it is read.

fn told(given: Option<Value>) -> String {
    match given {
        _ if seen().lacked => "unsupplied".to_string(),
        Some(value) => format!("some {value}"),
        None => "none".to_string(),
    }
}

fn answer(case: &Case) -> String {
    let frame = &case.frame;
    begin(frame);
    match case.entry.as_str() {
        "pdus" => told(parse_pdus(frame, case.downlink)),
        "cm" if case.downlink => told(parse_cm_logon(frame)),
        "cm" => told(parse_cm_ground(frame)),
        "acse" => told(parse_acse_apdu(frame)),
        "apdu" => {
            let text = told(parse_apdu(frame));
            if !seen().lacked {
                return text;
            }
            // Which of the two readings was it? The downlink one is made again by itself.
            begin(frame);
            let _ = parse_pdus(frame, true);
            if seen().lacked { text } else { "unsupplied-up".to_string() }
        }
        other => panic!("no such entry: {other}"),
    }
}

fn main() {
    each_case(answer);
}
