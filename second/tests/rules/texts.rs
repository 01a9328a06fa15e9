use crate::{composed, worked_plan, worked_request};
use second::compose::compose;
use second::lines::{Line, Lines};
use second::notation::number;
use second::rules::Refusal;
use second::sheet::{write_plan, write_request, Sheet};
use second::text::{read_call, show_sheet, Call, Fault};

fn refused(text: &str) -> u8 {
    match composed(text) {
        Err(Fault::Refused(refusal)) => refusal.number(),
        other => panic!("{other:?} of {text:?}"),
    }
}

fn unreadable(text: &str) -> u64 {
    match composed(text) {
        Err(Fault::Unreadable(line)) => line,
        other => panic!("{other:?} of {text:?}"),
    }
}

#[test]
fn show_and_compose() {
    let request = Sheet::Request(worked_request());
    let text = "ttrt 100\nstation 2 20 100 100\n".to_string() + &"station 0 20 100 100\n".repeat(3);
    assert_eq!(show_sheet(&request), text);
    assert_eq!(composed(&text).ok(), write_request(&worked_request(), 86).ok());
    let text = show_sheet(&Sheet::Plan(worked_plan()));
    assert!(text.ends_with("\nstation 0 20 100 100 20\n"));
    assert_eq!(composed(&text).ok(), write_plan(&worked_plan(), 114).ok());
}

#[test]
fn blanks_and_comments() {
    let untidy = "# a ring\n\n\t ttrt  0100 # rotation\r\n \nstation 2\t20 100 00100#c\n\
                  station 0 20 100 100\nstation 0 20 100 100\nstation 0 20 100 100";
    assert_eq!(composed(untidy).ok(), write_request(&worked_request(), 86).ok());
}

#[test]
fn lines_that_cannot_be_read() {
    assert_eq!(unreadable("ttrt 100\nttrt\n"), 2);
    assert_eq!(unreadable("station 1 1 1 1\nttrt 100\nttrt 100\nttrt x\nstop\n"), 4);
    assert_eq!(unreadable("ttrt 100 1\n"), 1);
    assert_eq!(unreadable("ttrt 4294967296\n"), 1);
    assert_eq!(unreadable("ttrt -1\n"), 1);
    assert_eq!(unreadable("\n#\nttrt 100\n\nstation 1 1 1\n"), 5);
    assert_eq!(unreadable("ttrt 100\nstation 1 1 1 1 1 1\n"), 2);
    assert_eq!(unreadable("ttrt 100\nstation 1 1 1 1\nstation 1 1 1 1 1\nstop"), 4);
    assert_eq!(unreadable("TTRT 100\n"), 1);
    let long = format!("ttrt 100 {}\n", "1 ".repeat(300));
    assert_eq!(unreadable(&long), 1);
}

/// The second line that is said of a text.
fn reason(text: &[u8]) -> String {
    let complaint = compose(text, &mut vec![]).expect("bytes at hand").expect_err("a fault");
    complaint.reason.expect("a second line")
}

#[test]
fn the_word_at_fault() {
    let long = [b"0".repeat(70), b"x".to_vec()].concat();
    let cases: [(&[u8], &str); 12] = [
        (b"ttrt 1\nstop 1", "expected ttrt, mode, frame, grid, station, visit or mark, found stop"),
        (
            b"ttrt",
            "expected number 1, a whole number up to 4,294,967,295, found the end of the line",
        ),
        (b"ttrt x12 y", "expected number 1, a whole number up to 4,294,967,295, found x12"),
        (
            b"ttrt 4294967296",
            "expected number 1, a whole number up to 4,294,967,295, found 4294967296",
        ),
        (b"ttrt 1 2#3", "expected the end of the line, found 2"),
        (
            b"station 1 2 3#",
            "expected number 4, a whole number up to 4,294,967,295, found the end of the line",
        ),
        (b"station 1 2 3 4 5 6 7", "expected the end of the line, found 6"),
        (b"visit 256 1 1 1 1", "expected number 1, a whole number up to 255, found 256"),
        (b"mark 1 0256", "expected number 2, a whole number up to 255, found 0256"),
        (
            b"tt\x00\xffrt 1",
            "expected ttrt, mode, frame, grid, station, visit or mark, found tt??rt",
        ),
        (b"ttrtx 1", "expected ttrt, mode, frame, grid, station, visit or mark, found ttrtx"),
        (
            &[b"ttrt ", &long[..]].concat(),
            &format!(
                "expected number 1, a whole number up to 4,294,967,295, found {}",
                "0".repeat(64)
            ),
        ),
    ];
    for (text, line) in cases {
        assert_eq!(reason(text), line);
    }
}

#[test]
fn the_line_with_a_number_out_of_its_range() {
    let cases = [
        ("ttrt 0\nstation 1 1 1 0", "line 1: TTRT is not in 1 to 1,000,000"),
        (
            "ttrt 9\n\nmode 1\nstation 1 1 1 1",
            "line 3: the mode is not in 2 to 3, leave the line out for 1",
        ),
        (
            "ttrt 9\nframe 65536\nstation 1 1 1 1",
            "line 2: F is not in 2 to 65,535, leave the line out for 1",
        ),
        (
            "ttrt 9\ngrid 0\nstation 1 1 1 1",
            "line 2: g is not in 2 to 1,000, leave the line out for 1",
        ),
        ("ttrt 9\nstation 1000001 100000001 1 1", "line 2: w is not in 0 to 1,000,000"),
        ("ttrt 9\nstation 1 100000001 0 1", "line 2: C is not in 0 to 100,000,000"),
        ("ttrt 9\nstation 1 1 0 100000001", "line 2: D is not in 1 to 100,000,000"),
        ("ttrt 9\nstation 1 1 2 1", "line 2: P is not in D to 100,000,000"),
        (
            "ttrt 9\nstation 1 1 1 1 1\nstation 1 1 1 1 1000001",
            "line 3: S is not in 0 to 1,000,000",
        ),
    ];
    for (text, line) in cases {
        assert_eq!(reason(text.as_bytes()), line);
    }
}

#[test]
fn texts_that_are_refused() {
    assert_eq!(refused(""), 2);
    assert_eq!(refused("ttrt 100\n"), 2);
    assert_eq!(refused("ttrt 100\nstation 1 1 100 100\nstation 1 1 100 100 1\n"), 2);
    assert_eq!(refused("ttrt 100\nstation 1 1 100 100 1\nstation 1 1 100 100\n"), 2);
    assert_eq!(refused(&("ttrt 500\n".to_string() + &"station 1 0 1 1\n".repeat(129))), 2);
    assert_eq!(refused(&("ttrt 500\n".to_string() + &"station 1 0 1 1 0\n".repeat(300))), 2);
    assert_eq!(refused("ttrt 4294967295\nstation 1 0 1 1\n"), 4);
    assert_eq!(refused("ttrt 1\nstation 2 0 1 1\n"), 5);
    assert_eq!(refused("ttrt 100\nstation 1 20 100 100 19\n"), 7);
}

#[test]
fn ttrt_stands_once_and_first() {
    let misplaced = [
        "station 1 0 100 100\n",
        "station 1 0 100 100\nttrt 100\n",
        "station 1 0 100 100\nttrt 100\nstation 1 0 100 100\n",
        "ttrt 100\nttrt 100\n",
        "ttrt 100\nttrt 100\nstation 1 0 100 100\n",
        "ttrt 100\nstation 1 0 100 100\nttrt 100\n",
        "ttrt 0\nstation 9 9 9 1\nttrt 0\n",
    ];
    for text in misplaced {
        assert_eq!(refused(text), 2, "{text}");
    }
    assert_eq!(refused(&("station 1 0 1 1\n".repeat(200) + "ttrt 500\n")), 2);
}

#[test]
fn lines_are_numbered_and_tidied() {
    let mut lines = Lines::new(&b"a  b # c\n\n  0001 00 0x0\r\nlast"[..]);
    let mut next =
        || lines.next_line().expect("bytes at hand").map(|line| (line.number, line.text));
    let line = |number, text: &str| Some((number, text.as_bytes().to_vec()));
    assert_eq!(next(), line(1, "a b "));
    assert_eq!(next(), line(2, ""));
    assert_eq!(next(), line(3, "1 0 0x0 "));
    assert_eq!(next(), line(4, "last"));
    assert_eq!(next(), None);
}

#[test]
fn calls() {
    let read = |text: &str| read_call(&Line { number: 9, text: text.into(), raw: vec![] });
    assert_eq!(read(""), Ok(None));
    assert_eq!(read("visit 4294967295"), Ok(Some(Call::Visit(u32::MAX.into()))));
    let call = read("message 3 18446744073709551615 7").expect("readable").expect("a call");
    assert_eq!(call.to_string(), "message 3 18446744073709551615 7");
    for text in ["visit", "visit 4294967296", "visit 1 2 3", "message 1 2", "visits 1 1", "visit x"]
    {
        assert_eq!(read(text), Err(Fault::Unreadable(9)), "{text}");
    }
}

#[test]
fn numbers_and_faults() {
    assert_eq!((number::<u32>(b""), number::<u32>(b"+1"), number(b"7")), (None, None, Some(7)));
    assert_eq!(Fault::Unreadable(7).to_string(), "line 7: cannot be read");
    assert_eq!(Fault::Refused(Refusal::NoRoom).to_string(), "refused 14");
}
