//! Calls on states that no run leads to, worked out by hand, and the lines of number 8.

use second::frames::answer;
use second::planted::Planted;

fn answered(state: &str) -> String {
    answer(&format!("state {state}"), Planted::Nothing)
}

/// TTRT 100. Station 0: w 2, C 20, D 100, P 150, S 20. Station 1: w 3, C 10, D 100, P 100, S 15.
/// The token is at station 1, which holds a message of 10 that is late already.
const LATE: &str =
    "1000,1,9,18;100;2,20,100,150,20,30,12,0,1,900,960;3,10,100,100,15,90,5,10,1,850,700";

/// The state with one text in it changed.
fn with(from: &str, to: &str) -> String {
    assert!(from.is_empty() || LATE.matches(from).count() == 1, "{from}");
    LATE.replacen(from, to, 1)
}

#[test]
fn visits() {
    // The limit is 100 − 18 − 90, held at 0; u is 18 − 10 + 5; the deadline was at 950.
    let served = "1013,0,10,13;43,12,0,1,900,960;13,10,0,1,850,1000";
    assert_eq!(
        answered(&format!("{LATE};visit 7")),
        format!("visit 1 1000 90 0 10 0 1010 -60|{served}")
    );
    // With TRT 1 the limit is 81, and all that is asked for is sent.
    assert_eq!(
        answered(&format!("{};visit 7", with("15,90,5", "15,1,5"))),
        "visit 1 1000 1 81 10 7 1010 -60|1020,0,10,13;50,12,0,1,900,960;20,10,0,1,850,1000"
    );
    // A message that arrives one tick after the start waits; s falls to 0, and u is 18 + 5.
    assert_eq!(
        answered(&format!("{};visit 0", with("10,1,850", "10,1,1001"))),
        "visit 1 1000 90 0 0 0 - -|1003,0,10,23;33,12,0,1,900,960;3,0,10,1,1001,1000"
    );
    // One that arrives at the start is served, whatever `had` says; its margin is 90.
    assert_eq!(
        answered(&format!("{};visit 0", with("10,1,850", "10,0,1000"))),
        "visit 1 1000 90 0 10 0 1010 90|1013,0,10,13;43,12,0,1,900,960;13,10,0,0,1000,1000"
    );
    // A message longer than S is sent in two parts; between them the token goes round once.
    let long = with("3,10,100,100,15,90,5,10,1", "3,30,200,200,15,90,5,20,1");
    assert_eq!(
        answered(&format!("{long};visit 0;visit 0;visit 0")),
        "visit 1 1000 90 0 15 0 - -|visit 0 1018 48 44 0 0 - -|visit 1 1020 20 60 5 0 1025 25|\
         1028,0,12,30;10,0,0,1,900,1018;8,5,0,1,850,1020"
    );
}

#[test]
fn a_visit_may_leave_a_state_unsound() {
    // Station 0's TRT passes TTRT: no call is taken any more.
    let behind = with("20,30,12", "20,100,12");
    assert_eq!(
        answered(&format!("{behind};visit 0;visit 0;message 0 20 5000")),
        "visit 1 1000 90 0 10 0 1010 -60|refused 8|refused 8|\
         1013,0,10,13;113,12,0,1,900,960;13,10,0,1,850,1000"
    );
}

#[test]
fn messages() {
    // The same state at 2000.
    let with = |from: &str, to: &str| with(from, to).replacen("1000,1,", "2000,1,", 1);
    let late = with("", "");
    let taken = |at: &str| format!("taken|2000,1,9,18;30,12,{at},960;90,5,10,1,850,700");
    // From 960 + 1 and from 900 + 150 on, to the clock.
    assert_eq!(answered(&format!("{late};message 0 20 1050")), taken("20,1,1050"));
    assert_eq!(answered(&format!("{late};message 0 7 2000")), taken("7,1,2000"));
    let refused =
        |number: u8| format!("refused {number}|2000,1,9,18;30,12,0,1,900,960;90,5,10,1,850,700");
    for (message, number) in [
        ("2 1 5000", 9),
        ("0 0 5000", 10),
        ("0 21 5000", 10),
        ("1 11 5000", 10),
        ("1 10 5000", 11),
        ("0 20 1049", 12),
        ("0 20 2001", 15),
        ("0 20 1000000000001", 15),
        ("0 20 18446744073709551615", 15),
    ] {
        assert_eq!(answered(&format!("{late};message {message}")), refused(number), "{message}");
    }
    // 15 comes before 12: less than 150 after 1900, and ahead of the clock or not.
    let soon = with("0,1,900,960", "0,1,1900,960");
    assert!(answered(&format!("{soon};message 0 20 2000")).starts_with("refused 12|"));
    assert!(answered(&format!("{soon};message 0 20 2001")).starts_with("refused 15|"));
    // 12 for what is past the range, where the clock is too.
    let last = late.replacen("2000,1,", "1000000000001,1,", 1);
    assert!(answered(&format!("{last};message 0 20 1000000000000")).starts_with("taken|"));
    assert!(answered(&format!("{last};message 0 20 1000000000001")).starts_with("refused 12|"));
    assert!(answered(&format!("{last};message 0 20 1000000000002")).starts_with("refused 15|"));
    // Without a message accepted before, only the last start counts; any byte but 0 is a yes.
    let none = with("0,1,900,960", "0,0,900,960");
    assert_eq!(answered(&format!("{none};message 0 20 961")), taken("20,1,961"));
    assert!(answered(&format!("{none};message 0 20 960")).starts_with("refused 12|"));
    let other = with("0,1,900,960", "0,128,900,960");
    assert!(answered(&format!("{other};message 0 20 1049")).starts_with("refused 12|"));
    assert_eq!(answered(&format!("{other};message 0 20 1050")), taken("20,1,1050"));
    // Before the first visit any arrival passes; station 1 was visited if there were two visits.
    let new = with("1,9,18", "1,0,18").replace("0,1,900,960", "0,0,900,960");
    assert!(answered(&format!("{new};message 0 20 0")).starts_with("taken|"));
    let one = with("1,9,18", "1,1,18").replace("10,1,850,700", "0,0,850,700");
    assert!(answered(&format!("{one};message 1 10 700")).starts_with("taken|"));
    let two = one.replace("1,1,18", "1,2,18");
    assert!(answered(&format!("{two};message 1 10 700")).starts_with("refused 12|"));
}

/// One number of a sound state moved past its end at a time, each alone unsound.
#[test]
fn each_line_of_the_unsound_states() {
    let sound = "5,3,6,60;100;2,20,100,100,20,100,20,0,1,7,0;0,20,100,100,20,0,0,20,0,0,0;\
                 0,20,100,100,20,0,0,0,0,1000000000000,0;0,20,100,100,20,0,0,1,0,0,0";
    let numbers = |state: &str| {
        let said = answered(&format!("{state};message 4 1 0;visit 0"));
        let words: Vec<String> = said.split('|').take(2).map(str::to_string).collect();
        words.join(", ")
    };
    assert_eq!(numbers(sound), "refused 9, visit 3 5 0 40 1 0 6 94");
    let changes = [
        ("2,20,", "2,21,"),
        ("5,3,", "5,4,"),
        ("20,100,20,0,1", "20,101,20,0,1"),
        ("6,60;100;2,20,100,100,20,100,20,", "6,59;100;2,20,100,100,20,100,21,"),
        ("6,60;", "6,61;"),
        (",20,0,0,0;", ",21,0,0,0;"),
        ("1000000000000,", "1000000000001,"),
        ("5,3,", "1000002000001,3,"),
        (",6,", ",4611686018427387904,"),
    ];
    for (from, to) in changes {
        assert!(sound.contains(from), "{from}");
        let changed = sound.replacen(from, to, 1);
        assert_eq!(numbers(&changed), "refused 8, refused 8", "{to}");
    }
    let last_clock = sound.replacen("5,3,", "1000002000000,3,", 1);
    assert_eq!(numbers(&last_clock), "refused 9, refused 13");
    let last_count = sound.replacen(",6,", ",4611686018427387903,", 1);
    assert_eq!(numbers(&last_count), "refused 9, visit 3 5 0 40 1 0 6 94");
}

/// A state of 129 stations is unsound, and shows as many places as a ring has.
#[test]
fn too_many_stations() {
    let many = format!("0,0,0,0;1{}", ";1,0,1,1,0,1,0,0,0,0,0".repeat(129));
    let shown = format!("0,0,0,0{}", ";1,0,0,0,0,0".repeat(128));
    assert_eq!(answered(&format!("{many};visit 0")), format!("refused 8|{shown}"));
}
