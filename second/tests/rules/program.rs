//! The program itself, from its arguments and standard input to its outputs.

use std::env::temp_dir;
use std::fs;
use std::io::{Read, Write};
use std::os::unix::fs::symlink;
use std::path::Path;
use std::process::{Command, Output, Stdio};

use crate::{worked_plan, worked_request};
use second::sheet::{write_plan, write_request};

fn second(arguments: &[&str], input: &[u8]) -> Output {
    let mut child = Command::new(env!("CARGO_BIN_EXE_second"))
        .args(arguments)
        .stdin(Stdio::piped())
        .stdout(Stdio::piped())
        .stderr(Stdio::piped())
        .spawn()
        .expect("the program starts");
    let mut stdin = child.stdin.take().expect("piped");
    std::thread::scope(|scope| {
        // The program may answer without reading all, and before it has.
        scope.spawn(move || stdin.write_all(input));
        child.wait_with_output().expect("the program ends")
    })
}

fn said(arguments: &[&str], input: &[u8]) -> String {
    let output = second(arguments, input);
    assert!(output.status.success() && output.stderr.is_empty());
    String::from_utf8(output.stdout).expect("text")
}

fn request_sheet() -> Vec<u8> {
    write_request(&worked_request(), 86).expect("sound")
}

fn plan_sheet() -> Vec<u8> {
    write_plan(&worked_plan(), 114).expect("sound")
}

#[test]
fn the_plan_of_the_worked_ring() {
    let text = "plan 4 100 2 18\n0 20\n1 20\n2 20\n3 20\n";
    assert_eq!(said(&[], &request_sheet()), text);
    assert_eq!(said(&["plan"], &request_sheet()), text);
}

#[test]
fn refused_requests() {
    assert_eq!(said(&[], b""), "refused 1\n");
    assert_eq!(said(&[], &plan_sheet()), "refused 2\n");
    assert_eq!(said(&["plan"], &[request_sheet(), vec![0; 5_000]].concat()), "refused 3\n");
}

#[test]
fn sheets_and_texts() {
    let text = said(&["show"], &plan_sheet());
    assert_eq!(second(&["compose"], text.as_bytes()).stdout, plan_sheet());
    let text = said(&["show"], &request_sheet());
    assert_eq!(second(&["compose"], text.as_bytes()).stdout, request_sheet());
    assert_eq!(second(&["plan-sheet"], &request_sheet()).stdout, plan_sheet());
    assert_eq!(said(&["show"], b""), "refused 1\n");
}

#[test]
fn refusals_beside_bytes_go_to_standard_error() {
    let refusals: [(&str, &[u8], &[u8]); 3] = [
        ("compose", b"ttrt 100\n", b"refused 2\n"),
        (
            "compose",
            b"ttrt 100\n\nstation\n",
            b"line 3: cannot be read\n\
              expected number 1, a whole number up to 4,294,967,295, found the end of the line\n",
        ),
        ("plan-sheet", b"", b"refused 1\n"),
    ];
    for (command, input, refusal) in refusals {
        let output = second(&[command], input);
        assert_eq!((&output.stdout[..], &output.stderr[..]), (&b""[..], refusal));
        assert!(!output.status.success());
    }
}

#[test]
fn a_request_at_every_ttrt() {
    let lines = "own 100 plan\nplans 2\nsmallest 99\nlargest 100\nbelow 99\nabove -\nbest 100\n\
                 plan 4 100 2 18\n";
    assert_eq!(
        said(&["tune", "99", "0100"], &request_sheet()),
        "tried 99 to 100\n".to_string() + lines
    );
    let all = said(&["tune"], &request_sheet());
    assert!(all.starts_with("tried 1 to 1000000\nown 100 plan\nplans "), "{all}");
    assert_eq!(said(&["tune", "5", "4"], &request_sheet()), "refused 4\n");
    assert_eq!(said(&["tune"], &plan_sheet()), "refused 2\n");
}

#[test]
fn the_longest_waits() {
    let text = said(&["waits", "1", "300"], b"");
    let seen =
        |line: &str| line.starts_with("N 2, ") && line.contains("6 of 6 visits (No. 3: 9), ");
    assert!(text.lines().any(seen), "{text}");
}

#[test]
fn every_line_is_answered() {
    let longest = ["request ", &"0".repeat(65_526), "0"].concat();
    let lines = [&longest[1..], &longest, &longest[..65_534], "", " ", "request -"];
    let input = [lines.join("\n").as_bytes(), b"\n\xff request"].concat();
    let answers = "no case\nno case\n2\nno case\nno case\n1\nno case\n";
    assert_eq!(said(&["answers"], &input), answers);
    let too_long = [&longest, "0\n"].concat();
    assert_eq!(said(&["answers"], too_long.as_bytes()), "no case\n");
    let long_input = ["command plan;", &"00".repeat(40_000), "\n"].concat();
    assert_eq!(said(&["answers"], long_input.as_bytes()), "7265667573656420320a -\n");
}

fn file(name: &str, bytes: &[u8]) -> String {
    let path = temp_dir().join(format!("second-{}-{name}", std::process::id()));
    fs::write(&path, bytes).expect("a place for files");
    path.to_str().expect("a plain path").to_string()
}

#[test]
fn the_worked_run_as_calls() {
    let plan = file("worked.plan", &plan_sheet());
    let calls = "message 0 20 0\nmessage 1 20 0 # both\n\nvisit 1000\nvisit\nvisit 0\nvisit 5\n\
                 message 4 1 1\nmessage 0 20 100\nmessage 0 20 41";
    let answers = "taken\ntaken\nvisit 0 0 2 18 20 18 20 80\nline 5: cannot be read\n\
                   visit 1 40 40 0 20 0 60 40\nvisit 2 60 60 0 0 0 - -\nrefused 9\nrefused 15\nrefused 12\n";
    assert_eq!(said(&["run", &plan], calls.as_bytes()), answers);
    fs::remove_file(plan).expect("the file is there");
}

#[test]
fn a_long_log() {
    let plan = file("logged.plan", &plan_sheet());
    let calls = "message 0 20 0\n".to_string() + &"visit 3\n".repeat(30_000);
    let log = second(&["log", &plan], calls.as_bytes()).stdout;
    assert_eq!(log.len(), 114 + 20 * 30_000);
    let text = said(&["show"], &log);
    assert_eq!(text.lines().count(), 5 + 30_000);
    assert_eq!(said(&["inspect"], &log), "accepted 30000\n");
    assert_eq!(second(&["compose"], text.as_bytes()).stdout, log);
    let cut = said(&["show"], &log[..log.len() - 1]);
    assert_eq!(cut, text + "refused 1\n");
    fs::remove_file(&plan).expect("the file is there");
    assert!(!second(&["log", &plan], b"").status.success());
}

#[test]
fn a_refused_plan_is_not_logged() {
    let plan = file("unlogged.plan", &plan_sheet()[..20]);
    let output = second(&["log", &plan], b"visit 1\n");
    assert_eq!((&output.stdout[..], &output.stderr[..]), (&b""[..], &b"refused 1\n"[..]));
    assert!(!output.status.success());
    fs::remove_file(&plan).expect("the file is there");
}

#[test]
fn a_refused_plan_answers_no_call() {
    let plan = file("broken.plan", &plan_sheet()[..20]);
    assert_eq!(said(&["run", &plan], b"visit 1\nvisit 1\n"), "refused 1\n");
    fs::remove_file(&plan).expect("the file is there");
    assert!(!second(&["run", &plan], b"").status.success());
}

#[test]
fn two_plans_side_by_side() {
    let left = file("left.plan", &plan_sheet());
    let back = file("back.plan", &[plan_sheet(), vec![0; 5_000]].concat());
    assert_eq!(said(&["diff", &left, &left], b"not read"), "same\n");
    assert_eq!(said(&["diff", &left, &back], b""), "new refused 3\n");
    assert_eq!(said(&["diff", &back, &left], b""), "old refused 3\n");
    fs::remove_file(&back).expect("the file is there");
    for words in [["diff", &left, &back], ["diff", &back, &left]] {
        let output = second(&words, b"");
        assert!(!output.status.success() && output.stdout.is_empty());
    }
    fs::remove_file(&left).expect("the file is there");
}

#[test]
fn a_page_in_a_file() {
    let plan = file("paged.plan", &plan_sheet());
    let calls = "message 0 20 0\nvisit 1000\nvisit 0\n";
    let log = file("paged.log", &second(&["log", &plan], calls.as_bytes()).stdout);
    let page = said(&["page", &log], b"not read");
    assert!(page.contains("<pre class=\"finding\">accepted 2\n</pre>"));
    let held = said(&["page", &log, &plan], b"");
    assert!(page.contains("No plan sheet was named") && !held.contains("No plan sheet was named"));
    assert!(held.contains("<p>The log has the plan of the plan sheet that was named.</p>"));
    let refused = said(&["page", &log, &log], b"");
    assert!(refused.contains("<pre class=\"finding\">plan refused 2\n</pre>"));
    fs::remove_file(&plan).expect("the file is there");
    for words in [&["page", &plan][..], &["page", &log, &plan], &["page", &plan, &log]] {
        let output = second(words, b"");
        assert!(!output.status.success() && output.stdout.is_empty());
        assert!(String::from_utf8_lossy(&output.stderr).contains(&plan), "it names the file");
    }
    fs::remove_file(&log).expect("the file is there");
}

#[test]
fn versions_in_a_file() {
    let store = file("yard.store", b"");
    assert!(!second(&["empty-store", &store], b"").status.success());
    fs::remove_file(&store).expect("the file is there");
    assert_eq!(said(&["empty-store", &store], b""), "");
    assert_eq!(said(&["versions", &store], b""), "");
    assert_eq!(said(&["keep", &store], &plan_sheet()), "version 1\n");
    assert_eq!(said(&["keep", &store], &request_sheet()), "refused 2\n");
    assert_eq!(said(&["keep", &store], &plan_sheet()), "version 2\n");
    assert_eq!(said(&["versions", &store], b""), "1 plan 4 100 2 18\n2 plan 4 100 2 18\n");
    assert_eq!(second(&["kept", &store, "02"], b"").stdout, plan_sheet());
    for number in ["0", "3", "4294967297"] {
        let output = second(&["kept", &store, number], b"");
        assert_eq!((&output.stdout[..], &output.stderr[..]), (&b""[..], &b"refused 17\n"[..]));
    }
    let beside = format!("{store}.new");
    fs::write(&beside, b"").expect("a place for files");
    assert!(!second(&["keep", &store], &plan_sheet()).status.success());
    fs::remove_file(&beside).expect("the file is there");
    fs::write(&store, b"short").expect("a place for files");
    assert_eq!(said(&["versions", &store], b""), "refused 2\n");
    assert_eq!(said(&["keep", &store], &plan_sheet()), "refused 2\n");
    fs::remove_file(&store).expect("the file is there");
    assert!(!second(&["versions", &store], b"").status.success());
}

#[test]
fn a_store_behind_a_lock_or_a_link() {
    let store = file("locked.store", b"");
    let (beside, link) = (format!("{store}.new"), format!("{store}.link"));
    fs::remove_file(&store).expect("the file is there");
    fs::write(&beside, b"").expect("a place for files");
    assert!(!second(&["empty-store", &store], b"").status.success());
    assert!(!Path::new(&store).exists());
    fs::remove_file(&beside).expect("the file is there");
    symlink(&store, &link).expect("a place for links");
    for there in [false, true] {
        for words in [["empty-store", &link], ["keep", &link]] {
            assert!(!second(&words, &plan_sheet()).status.success());
            assert_eq!(Path::new(&store).exists(), there);
        }
        if !there {
            assert!(!second(&["keep", &store], &plan_sheet()).status.success());
            assert_eq!(said(&["empty-store", &store], b""), "");
        }
        assert!(!Path::new(&beside).exists());
    }
    assert_eq!(said(&["versions", &link], b""), "");
    fs::remove_file(&link).expect("the link is there");
    fs::remove_file(&store).expect("the file is there");
}

#[test]
fn an_answer_does_not_wait_for_the_next_call() {
    let plan = file("waiting.plan", &plan_sheet());
    let mut child = Command::new(env!("CARGO_BIN_EXE_second"))
        .args(["run", &plan])
        .stdin(Stdio::piped())
        .stdout(Stdio::piped())
        .spawn()
        .expect("the program starts");
    let mut calls = child.stdin.take().expect("piped");
    calls.write_all(b"visit 0\n").expect("the program reads");
    let expected = b"visit 0 0 2 18 0 0 - -\n";
    let mut answer = [0; 23];
    child.stdout.take().expect("piped").read_exact(&mut answer).expect("an answer");
    assert_eq!(&answer, expected);
    drop(calls);
    child.wait().expect("the program ends");
    fs::remove_file(plan).expect("the file is there");
}

#[test]
fn usage_for_anything_else() {
    let usage = said(&["help"], b"");
    for name in [
        "plan",
        "compose",
        "show",
        "explain",
        "tune [FROM TO]",
        "plan-sheet",
        "run PLAN",
        "log PLAN",
        "inspect",
        "page LOG [PLAN]",
        "diff OLD NEW",
        "empty-store STORE",
        "keep STORE",
        "kept STORE N",
        "versions STORE",
        "generate",
        "answers",
    ] {
        assert!(usage.contains(&format!("  {name}")), "{name}");
    }
    let others: [&[&str]; 19] = [
        &["else"],
        &["plan", "more"],
        &["run"],
        &["diff", "old"],
        &["page"],
        &["page", "log", "plan", "more"],
        &["empty-store"],
        &["kept", "store"],
        &["kept", "store", ""],
        &["kept", "store", "-1"],
        &["tune", "1"],
        &["tune", "1", ""],
        &["tune", "-1", "2"],
        &["tune", "1", "2", "3"],
        &["diff", "old", "new", "more"],
        &["--planted", "99", "plan"],
        &["--planted"],
        &["generate", "runs", "1"],
        &["generate", "runs", "1", "1", "-", "more"],
    ];
    for arguments in others {
        assert_eq!(said(arguments, b""), usage, "{arguments:?}");
    }
}

#[test]
fn cases_go_to_standard_output_or_a_file() {
    let shown = said(&["generate", "requests", "5", "3"], b"");
    assert_eq!(shown.lines().count(), 3);
    let folder = temp_dir().join(format!("second-{}-cases", std::process::id()));
    let folder = folder.to_str().expect("a plain path");
    assert_eq!(said(&["generate", "requests", "5", "3", folder], b""), "");
    let stored = fs::read_to_string(format!("{folder}/requests-5.cases")).expect("written");
    assert_eq!(stored, shown);
    assert_eq!(said(&["answers"], shown.as_bytes()).lines().count(), 3);
    fs::remove_dir_all(folder).expect("the folder is there");
}
