//! The page about a log: its order, the numbers of the named record, what each station did, which
//! rotations are drawn, and what becomes of amounts beyond the bound; and the version at its foot.

use std::fs;
use std::path::Path;

use crate::{composed, earlier, fddi, station, worked_plan};
use second::inspect::inspected;
use second::log::log_of;
use second::page::{page, records::window, words::VERSION};
use second::planted::Planted;
use second::rules::{Entry, MarkEntry, Plan, Request, VisitEntry};
use second::sheet::fields;

fn visit(station: u8, start: u32, limit: u32, synchronous: u32, asynchronous: u32) -> Entry {
    Entry::Visit(VisitEntry { station, start, limit, synchronous, asynchronous })
}

fn mark(station: u8, mark: u8) -> Entry {
    Entry::Mark(MarkEntry { station, mark })
}

fn of_bytes(log: &[u8]) -> String {
    page(None, log, Planted::Nothing).expect("bytes at hand")
}

fn of(plan: &Plan, entries: &[Entry]) -> String {
    of_bytes(&log_of(plan, entries).expect("sound"))
}

/// The page has these pieces, in this order.
fn has(page: &str, pieces: &[&str]) {
    let mut rest = page;
    for piece in pieces {
        let at = rest.find(piece).unwrap_or_else(|| panic!("no {piece:?} in {rest}"));
        rest = &rest[at + piece.len()..];
    }
}

/// The first visits of the worked run: all of the spare time is used at the first.
fn worked_entries() -> Vec<Entry> {
    vec![visit(0, 7, 18, 20, 18), visit(1, 47, 0, 20, 0), visit(2, 67, 0, 0, 0)]
}

#[test]
fn the_pieces_of_an_accepted_log() {
    let page = of(&worked_plan(), &worked_entries());
    has(
        &page,
        &[
            "<!DOCTYPE html>\n<html ",
            "<div class=\"good\">\n<p class=\"word\">ACCEPTED</p>\n",
            "<pre class=\"finding\">accepted 3\n</pre>",
            "<h2>What that means</h2>\n<p>A ring that was opened",
            "<h2>The plan</h2>",
            "<tr><td>A*, the spare time</td><td>18</td></tr>",
            "<tr><td>3</td><td>0</td><td>20</td><td>100</td><td>100</td><td>20</td></tr>",
            "within 100 ticks.",
            "stations, 4, send asynchronously at most 18 ticks.",
            "<p>Records counted: 3, all of the log.</p>",
            "<p>Rotations 1 to 1 of 1.</p>",
            "viewBox=\"0 0 10000 400\"",
            "record 1: station 0 start 7 limit 18 synchronous 20 asynchronous 18<",
            "<rect class=\"s\" x=\"0\" y=\"100\" width=\"2000\" height=\"200\"/>\n\
             <rect class=\"a\" x=\"2000\" y=\"100\" width=\"1800\" height=\"200\"/>\n\
             <line class=\"w\" x1=\"3800\" y1=\"200\" x2=\"4000\" y2=\"200\"/>\n\
             <line class=\"l\" x1=\"2000\" y1=\"300\" x2=\"3800\" y2=\"300\"/>\n</g>",
            "The log has 174 bytes.</p>\n</footer>\n</body>\n</html>\n",
        ],
    );
    assert!(!page.contains("<h3>") && !page.contains("class=\"f\""));
}

#[test]
fn logs_that_are_not_judged() {
    let own = fields(&worked_plan().request, &worked_plan().allocation).concat();
    let log = log_of(&worked_plan(), &worked_entries()).expect("sound");
    let behind = of_bytes(&[&log[..], b"x"].concat());
    has(
        &behind,
        &[
            "NOT JUDGED",
            "refused 3\n</pre>\n</div>\n<p>3: a byte follows the end field.</p>\n\
             <p>Nothing of this log was held to the rules, and the set must not leave on it.</p>\n<footer>",
        ],
    );
    has(&of_bytes(b""), &["refused 1\n</pre>\n</div>\n<p>1: ", "The log has 0 bytes."]);
    let with = |plan: &[u8]| page(Some(plan), &log, Planted::Nothing).expect("bytes at hand");
    let held = with(&own).replace(
        "The log has the plan of the plan sheet that was named.",
        "No plan sheet was named: whether the log's plan is the one that the set left with was not asked.",
    );
    assert_eq!(held, of_bytes(&log));
    has(
        &with(&own[..9]),
        &["NOT JUDGED", "plan refused 1\n</pre>\n</div>\n<p>1: ", "has 174 bytes."],
    );
    let other = composed("ttrt 100\nstation 2 20 100 100 20\n").expect("sound");
    let other = with(&other);
    has(
        &other,
        &["ANOTHER PLAN", "another plan\n1 new 0 20 100 100 20\n", "was made with another plan"],
    );
    assert!(!other.contains("<svg") && !other.contains("The plan<"));
}

#[test]
fn a_log_without_a_visit() {
    for entries in [vec![], vec![mark(3, 1), mark(3, 0)]] {
        let page = of(&worked_plan(), &entries);
        has(
            &page,
            &[
                "ACCEPTED",
                "<p>There is no visit in this log, so nothing that a station did was held to the rules. ",
                "<tr><td>0</td><td>0</td><td>0</td><td>-</td><td>100</td><td>0</td>",
                "<p>Switched through when the log ends: no station.</p>",
            ],
        );
        assert!(!page.contains("had the token in time"));
        has(&page, &["<h2>The rotations</h2>\n<p>The log has no visit.</p>\n<footer>"]);
    }
    let page = of(&worked_plan(), &[mark(3, 1), mark(4, 0)]);
    let row = "<tr class=\"bad\"><td>broken</td><td>station</td><td>below 4, mark 0 or 1</td><td>4, mark 0</td>";
    has(
        &page,
        &[
            "<h3>Record 2, a mark</h3>",
            row,
            "Records counted: 1, those before record 2",
            "Rotations 1 to 1 of 1.",
        ],
    );
    has(&page, &["record 2: mark of station 4, 0</title>\n<rect class=\"f\" fill=\"none\" x=\"0\" y=\"0\" width=\"300\" height=\"400\"/>\n</g>\n</svg>"]);
}

#[test]
fn the_numbers_of_the_named_record() {
    let mut entries = worked_entries();
    entries.push(visit(3, 67, 5, 21, 6));
    has(
        &of(&worked_plan(), &entries),
        &[
            "<h3>Record 4, a visit</h3>",
            "<td>kept</td><td>station</td><td>3</td><td>3</td>",
            "<td>kept</td><td>start</td><td>67</td><td>67</td><td>start of the visit before 67, and what it took, 0</td>",
            "<tr class=\"bad\"><td>broken</td><td>limit</td><td>0</td><td>5</td><td>TTRT 100 - (F - 1) 0 - u 40 - TRT 60, held at 0</td>",
            "<td>not judged</td><td>synchronous</td><td>at most 20</td><td>21</td><td>S of the station</td>",
            "<td>not judged</td><td>asynchronous</td><td>at most 0</td><td>6</td><td>the limit</td>",
            "Records counted: 3, those before record 4.",
        ],
    );
    // The first visit may start at any moment; a switched-through station sends nothing.
    has(
        &of(&worked_plan(), &[mark(0, 1), visit(0, 9, 0, 1, 0)]),
        &[
            "<td>start</td><td>any</td><td>9</td>",
            "<td>limit</td><td>0</td><td>0</td><td>the station is switched through</td>",
            "<td>broken</td><td>synchronous</td><td>at most 0</td><td>1</td><td>the station is switched through</td>",
            "(through)",
            "<line class=\"m\" x1=\"0\" y1=\"0\" x2=\"0\" y2=\"400\"/>\n<text x=\"0\" y=\"100\" font-size=\"100\">(0)</text>",
        ],
    );
}

/// One station of each mode, with frames of 5.
fn alone(head: second::rules::Head) -> Plan {
    let head = second::rules::Head { frame: 5, ..head };
    Plan {
        request: Request { head, stations: vec![station(10, 20, 250, 250)] },
        allocation: vec![20],
    }
}

#[test]
fn the_modes() {
    // FDDI's timer goes on by TTRT where the token is late, and its bound is longer.
    let older = alone(fddi(100));
    let fddi_page =
        of(&older, &[visit(0, 0, 90, 20, 90), visit(0, 120, 0, 0, 0), visit(0, 130, 71, 0, 0)]);
    has(
        &fddi_page,
        &[
            "<td>limit</td><td>70</td><td>71</td><td>TTRT 100 - timer 30, held at 0</td>",
            "<td>begun below 70</td><td>0</td><td>the limit; whole frames of one length up to F 5</td>",
            "2, FDDI",
            "within 124 ticks",
            "promises no deadline",
            "<td>2</td><td>0</td><td>120</td><td>124</td><td>20</td><td>20</td><td>20</td><td>90</td>",
            "viewBox=\"0 0 12400 496\"",
        ],
    );
    // The 2002 edition sends asynchronously first, and counts TRT from the synchronous part on.
    let page = of(&alone(earlier(100)), &[visit(0, 0, 66, 5, 65), visit(0, 80, 2, 0, 0)]);
    has(
        &page,
        &[
            "<td>limit</td><td>66</td><td>2</td><td>TTRT 100 - (F - 1) 4 - u 15 - TRT 15, held at 0</td>",
            "2002 edition",
            "It is not promised",
            "<rect class=\"a\" x=\"0\" y=\"100\" width=\"6500\" height=\"200\"/>\n\
             <rect class=\"s\" x=\"6500\" y=\"100\" width=\"500\" height=\"200\"/>",
            "<line class=\"l\" x1=\"0\" y1=\"300\" x2=\"6600\" y2=\"300\"/>",
        ],
    );
}

#[test]
fn what_each_station_did() {
    let mut entries = worked_entries();
    entries.insert(1, mark(3, 1));
    entries.extend([visit(3, 67, 0, 0, 0), visit(0, 67, 0, 7, 0), mark(3, 0)]);
    let plan = worked_plan();
    assert_eq!(inspected(&plan, &entries, Planted::Nothing).1, None);
    has(
        &of(&plan, &entries),
        &[
            "Records counted: 7, all",
            "<tr><td>0</td><td>2</td><td>0</td><td>60</td><td>100</td><td>20</td><td>20</td><td>27</td><td>18</td></tr>\n\
             <tr><td>1</td><td>1</td><td>0</td><td>-</td><td>100</td><td>20</td><td>20</td><td>20</td><td>0</td></tr>\n\
             <tr><td>2</td><td>1</td><td>0</td><td>-</td><td>100</td><td>0</td><td>20</td><td>0</td><td>0</td></tr>\n\
             <tr><td>3</td><td>1</td><td>1</td><td>-</td><td>100</td><td>0</td><td>20</td><td>0</td><td>0</td></tr>\n</table>",
            "Rotations 1 to 2 of 2.",
        ],
    );
}

#[test]
fn amounts_beyond_the_bound() {
    let most = u32::MAX;
    let page = of(&worked_plan(), &[visit(0, 0, most, most, most), visit(200, 0, 1, 1, 1)]);
    has(
        &page,
        &[
            "<rect class=\"s\" x=\"0\" y=\"100\" width=\"10000\" height=\"200\"/>\n\
             <rect class=\"a\" x=\"10000\" y=\"100\" width=\"0\" height=\"200\"/>\n\
             <line class=\"w\" x1=\"10000\" y1=\"200\" x2=\"10000\" y2=\"200\"/>\n\
             <line class=\"l\" x1=\"10000\" y1=\"300\" x2=\"10000\" y2=\"300\"/>\n\
             <path class=\"c\" d=\"M9800 100V300L10000 200Z\"/>\n\
             <rect class=\"f\" fill=\"none\" x=\"0\" y=\"0\" width=\"10000\" height=\"400\"/>\n</g>",
            "record 2: station 200 start 0 limit 1 synchronous 1 asynchronous 1<",
            "<text x=\"10000\" y=\"100\" font-size=\"100\">200</text>",
            "<path class=\"c\"",
        ],
    );
}

#[test]
fn at_most_sixty_rotations() {
    assert_eq!([0, 59, 60, 61, 900].map(|all| window(all, None).end), [0, 59, 60, 60, 60]);
    let named = [(1, 0), (9, 2), (70, 57), (70, 58), (70, 69), (90, 69)];
    let windows = named.map(|(all, rotation)| window(all, Some(rotation)));
    assert_eq!(windows, [0..1, 0..5, 0..60, 1..61, 10..70, 12..72]);
    let plan = Plan { allocation: vec![20], ..alone(earlier(100)) };
    let mut entries: Vec<Entry> = (0..70).map(|count| visit(0, 10 * count, 66, 0, 0)).collect();
    entries[0] = visit(0, 0, 66, 0, 0);
    assert_eq!(inspected(&plan, &entries, Planted::Nothing).1, None);
    has(
        &of(&plan, &entries),
        &[
            "Rotations 1 to 60 of 70.",
            ">rotation 1, from record 1<",
            ">rotation 60, from record 60<",
        ],
    );
    entries[65] = mark(1, 1);
    let page = of(&plan, &entries);
    has(
        &page,
        &[
            "Rotations 9 to 68 of 69.",
            ">rotation 9, from record 9<",
            ">rotation 66, from record 66<",
            "record 66: mark of",
            "record 67: ",
            ">rotation 68, from record 69<",
        ],
    );
    assert_eq!(page.matches("class=\"f\"").count(), 1);
}

#[test]
fn the_version_is_that_of_the_header() {
    let header = Path::new(env!("CARGO_MANIFEST_DIR")).join("../include/olivastrum.h");
    let header = fs::read_to_string(header).expect("the header");
    assert!(header.contains(&format!("#define OLIVASTRUM_VERSION \"{VERSION}\"\n")));
    has(&of_bytes(b""), &[&format!("<p>Olivastrum {VERSION}. ")]);
}
