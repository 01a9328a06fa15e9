//! Visit logs as text: the commands `show`, `compose` and `log` on them.

use crate::logs::{worked_entries, worked_log};
use crate::worked_plan;
use second::compose::compose;
use second::frames::answer;
use second::log::log_of;
use second::notation::{from_hex, to_hex};
use second::planted::Planted;
use second::sheet::{fields, record_field, write_plan};

/// What a command puts on standard output and standard error.
fn said(command: &str, input: &[u8]) -> (Vec<u8>, String) {
    let said = answer(&format!("command {command};{}", to_hex(input)), Planted::Nothing);
    let (out, err) = said.split_once(' ').expect("two streams");
    (from_hex(out).expect("bytes"), String::from_utf8(from_hex(err).expect("bytes")).expect("text"))
}

fn shown(log: &[u8]) -> String {
    let (out, err) = said("show", log);
    assert_eq!(err, "");
    String::from_utf8(out).expect("text")
}

const PLAN: &str = "ttrt 100\nstation 2 20 100 100 20\nstation 0 20 100 100 20\n\
                    station 0 20 100 100 20\nstation 0 20 100 100 20\n";

const VISITS: &str = "visit 0 0 18 20 18\nvisit 1 40 0 20 0\nvisit 2 60 0 20 0\n\
                      visit 3 80 0 20 0\nvisit 0 100 0 20 0\nvisit 1 122 18 20 18\n";

#[test]
fn show_and_compose() {
    assert_eq!(shown(&worked_log()), format!("{PLAN}{VISITS}"));
    let text = format!("{PLAN}{VISITS}");
    assert_eq!(said("compose", text.as_bytes()), (worked_log(), String::new()));
    let untidy =
        text.replace("visit 0 0", "# a log\n\n\tvisit 00   000 ").replace('\n', " # x\r\n");
    assert_eq!(said("compose", untidy.as_bytes()), (worked_log(), String::new()));
    let no_newline = text.trim_end();
    assert_eq!(said("compose", no_newline.as_bytes()), (worked_log(), String::new()));
}

/// What is read before a fault is shown; then the refusal.
#[test]
fn a_fault_behind_the_plan() {
    let log = worked_log();
    assert_eq!(shown(&log[..111]), "refused 1\n");
    assert_eq!(shown(&log[..130]), "refused 1\n");
    let one = format!("{PLAN}visit 0 0 18 20 18\n");
    for cut in 131..151 {
        assert_eq!(shown(&log[..cut]), format!("{one}refused 1\n"), "cut at {cut}");
    }
    let share = [&log[..131], &log[104..111], &log[131..]].concat();
    assert_eq!(shown(&share), format!("{one}refused 2\n"));
    let more = [&log[..], &[16]].concat();
    assert_eq!(shown(&more), format!("{PLAN}{VISITS}refused 3\n"));
    // A plan with a byte behind it has no visit: nothing is shown of it.
    let plan = write_plan(&worked_plan(), 114).expect("sound");
    assert_eq!(shown(&[&plan[..], &[0]].concat()), "refused 3\n");
}

/// Nothing is shown of a log whose plan is refused, and the faults behind come first.
#[test]
fn a_refused_plan() {
    let mut plan = worked_plan();
    plan.allocation[0] = 19;
    let mut parts = fields(&plan.request, &plan.allocation);
    let end = parts.pop().expect("an end");
    let visits: Vec<Vec<u8>> = worked_entries().iter().map(record_field).collect();
    let log = [parts.concat(), visits.concat(), end].concat();
    assert_eq!(shown(&log), "refused 7\n");
    assert_eq!(shown(&log[..log.len() - 1]), "refused 1\n");
    assert_eq!(shown(&[&log[..], &[0]].concat()), "refused 3\n");
}

/// The bytes, and the first line on standard error.
fn composed(text: &str) -> (Vec<u8>, String) {
    let (out, err) = said("compose", text.as_bytes());
    (out, err.split_inclusive('\n').take(1).collect())
}

fn refused(text: &str, number: u8) {
    assert_eq!(composed(text), (vec![], format!("refused {number}\n")), "{text}");
}

#[test]
fn texts_whose_plan_is_refused() {
    let visit = "visit 0 0 0 0 0\n";
    refused(visit, 2);
    refused(&format!("ttrt 100\n{visit}"), 2);
    refused(&format!("{visit}{PLAN}"), 2);
    refused(&format!("ttrt 100\n{visit}{}", PLAN.replace("ttrt 100\n", "")), 2);
    let request = PLAN.replace(" 20\n", "\n");
    refused(&format!("{request}{visit}"), 2);
    refused(&format!("{request}station 0 0 1 1 0\n{visit}"), 2);
    refused(&format!("{PLAN}{}{visit}", "station 0 0 1 1 0\n".repeat(125)), 2);
    refused(&format!("mode 2\n{PLAN}{visit}"), 2);
    refused(&format!("{}{visit}", PLAN.replace("ttrt 100", "ttrt 100\nframe 1")), 4);
    refused(&format!("{}{visit}", PLAN.replace("station 2", "station 0")), 5);
    refused(&format!("{}{visit}", PLAN.replace("ttrt 100", "ttrt 100\nframe 20")), 7);
    // 2 behind the visits comes before 4, 5 and 7 of the plan.
    for plan in [
        PLAN.replace("ttrt 100", "ttrt 100\nframe 1"),
        PLAN.replace("station 2", "station 0"),
        PLAN.replace("ttrt 100", "ttrt 100\nframe 20"),
    ] {
        refused(&format!("{plan}{visit}station 0 20 100 100 20\n"), 2);
        refused(&format!("{plan}{visit}ttrt 100\n{visit}"), 2);
        let unread = (vec![], "line 8: cannot be read\n".to_string());
        let plan = if plan.contains("frame") { plan } else { format!("{plan}#\n") };
        assert_eq!(composed(&format!("{plan}{visit}visits\n")), unread);
    }
}

/// The bytes that went out are a log without its end.
#[test]
fn a_fault_behind_a_visit() {
    let whole = log_of(&worked_plan(), &worked_entries()[..1]).expect("sound");
    let begun = &whole[..whole.len() - 3];
    let one = format!("{PLAN}visit 0 0 18 20 18\n");
    for line in ["station 0 20 100 100 20", "ttrt 100", "mode 2", "frame 2", "station 0 0 1 1"] {
        let refused = (begun.to_vec(), "refused 2\n".to_string());
        assert_eq!(composed(&format!("{one}{line}\n")), refused, "{line}");
        // Nothing more goes out, and a line that cannot be read is named all the same.
        assert_eq!(composed(&format!("{one}{line}\n{VISITS}")), refused, "{line}");
        let unread = (begun.to_vec(), "line 14: cannot be read\n".to_string());
        assert_eq!(composed(&format!("{one}{line}\n{VISITS}what\n")), unread, "{line}");
    }
    for line in [
        "visit",
        "visit 0 0 0 0",
        "visit 0 0 0 0 0 0",
        "visit 256 0 0 0 0",
        "visit 0 4294967296 0 0 0",
        "visit 0 0 4294967296 0 0",
        "visit 0 0 0 4294967296 0",
        "visit 0 0 0 0 4294967296",
        "visit -1 0 0 0 0",
        "visit 0 0 0 0 x",
        "message 0 20 0",
        "Visit 0 0 0 0 0",
    ] {
        let unread = (begun.to_vec(), "line 7: cannot be read\n".to_string());
        assert_eq!(composed(&format!("{one}{line}\n{VISITS}")), unread, "{line}");
        let unread = (vec![], "line 6: cannot be read\n".to_string());
        assert_eq!(composed(&format!("{PLAN}{line}\n{VISITS}")), unread, "{line}");
    }
    let top = "visit 255 4294967295 4294967295 4294967295 4294967295\n";
    let (log, err) = composed(&format!("{PLAN}{top}"));
    assert_eq!((log[114..131].to_vec(), err), (vec![255; 17], String::new()));
}

/// `log` writes the log of what `run` answers.
#[test]
fn the_log_of_a_run() {
    let plan = to_hex(&write_plan(&worked_plan(), 114).expect("sound"));
    let calls = "message 0 20 0\nmessage 1 20 0\nmessage 2 20 0\nmessage 3 20 0\nvisit 1000\n\
                 message 0 20 100\nvisit 1000\nmessage 9 1 1\nvisit 1000 2\nvisit 1000\nvisit 1000\n\
                 message 0 20 100\nmessage 1 20 100\nvisit 1000\nvisit 1000";
    let log = |calls: &str| said(&format!("log;{plan}"), calls.as_bytes());
    assert_eq!(log(calls), (worked_log(), String::new()));
    assert_eq!(log(""), (from_hex(&plan).expect("bytes"), String::new()));
    // A line that cannot be read is passed over, and the first is named.
    let faulty = calls.replacen("visit 1000\n", "visit\nvisit 1000\n", 1) + "\n\nvisit 0 0 0 0 0";
    assert_eq!(log(&faulty), (worked_log(), "line 5: cannot be read\n".to_string()));
}

#[test]
fn the_log_of_a_refused_plan() {
    let refused = |number: u8| (vec![], format!("refused {number}\n"));
    let log = |plan: &[u8]| said(&format!("log;{}", to_hex(plan)), b"visit 0\nwhat\n");
    assert_eq!(log(b""), refused(1));
    assert_eq!(log(&worked_log()), refused(2));
    let plan = write_plan(&worked_plan(), 114).expect("sound");
    assert_eq!(log(&[&plan[..], &[0]].concat()), refused(3));
    assert_eq!(log(&[&plan[..110], &[19], &plan[111..]].concat()), refused(7));
}

/// However the bytes of a log come in, the answer is that of the whole.
#[test]
fn pieces_do_not_matter() {
    let text = format!("{PLAN}{VISITS}");
    for size in [1, 2, 3, 7, 20, 100] {
        let pieces = Pieces { bytes: text.as_bytes(), size };
        let mut bytes = vec![];
        compose(pieces, &mut bytes).expect("bytes at hand").expect("a log");
        assert_eq!(bytes, worked_log());
    }
}

/// A reader that hands out a few bytes at a time.
struct Pieces<'a> {
    bytes: &'a [u8],
    size: usize,
}

impl std::io::Read for Pieces<'_> {
    fn read(&mut self, buffer: &mut [u8]) -> std::io::Result<usize> {
        let size = self.size.min(buffer.len()).min(self.bytes.len());
        let (now, later) = self.bytes.split_at(size);
        buffer[..size].copy_from_slice(now);
        self.bytes = later;
        Ok(size)
    }
}
