//! The fixed texts of the page: what is on it whatever the log says.

/// The version of Olivastrum, which is that of the proved program: a test holds it to include/olivastrum.h.
pub const VERSION: &str = "0.16.5";

/// What stands before the finding.
pub const HEAD: &str = r##"<!DOCTYPE html>
<html xmlns="http://www.w3.org/1999/xhtml" lang="en">
<head>
<title>Olivastrum: what a log says</title>
<style>
body{font:15px/1.45 sans-serif;color:#111;background:#fff;max-width:62em;margin:1.5em auto;padding:0 1em}
h1{font-size:1em;font-weight:normal;color:#444;margin:0 0 .8em}
h2{font-size:1.2em;margin:1.6em 0 .4em}
h3{font-size:1em;margin:1em 0 .3em}
.word{display:inline-block;font-size:1.1em;font-weight:bold;margin:0;padding:.15em .6em;color:#fff;background:#a11}
.good .word{background:#176b2c}
.finding{font:bold 1.7em/1.3 monospace;white-space:pre-wrap;margin:.3em 0;padding:.3em .5em;border-left:.3em solid #a11;background:#fbeeee}
.good .finding{border-color:#176b2c;background:#eef7f0}
table{border-collapse:collapse;margin:.5em 0}
th,td{border:1px solid #999;padding:.15em .5em;text-align:left;vertical-align:top}
.n td,.n th{text-align:right}
.bad td{background:#fbeeee;font-weight:bold}
figure{margin:0 0 .35em}
figcaption{font-size:.8em;color:#333}
svg{display:block;width:100%;height:auto;background:#f4f4f4}
svg *{vector-effect:non-scaling-stroke}
text{font-family:sans-serif;fill:#111;transform-box:fill-box;transform-origin:0 100%;transform:translateX(.3em) scale(1.25)}
.t{display:none}
g:hover .t{display:block}
.s{fill:#1f4e9c;stroke:#fff;stroke-width:.5px}
.a{fill:#f6b73c;stroke:#8a5a00;stroke-width:1px}
.v{stroke:#888;stroke-width:1px}
.m{stroke:#a11;stroke-width:2px;stroke-dasharray:3 3}
.w{stroke:#777;stroke-width:2px}
.l{stroke:#111;stroke-width:1.5px}
.b{stroke:#a11;stroke-width:5px}
.c{fill:#a11}
.f{fill:none;stroke:#a11;stroke-width:3px}
.key span{padding:0 .5em;margin-right:.2em}
.ks{background:#1f4e9c;color:#fff}
.ka{background:#f6b73c}
.kl{border-bottom:2px solid #111}
.kw{border-bottom:2px solid #777}
.km{border-left:2px dashed #a11}
.kb{border-right:4px solid #a11}
.kf{border:2px solid #a11}
footer{margin-top:2em;border-top:1px solid #999;font-size:.85em;color:#333}
@media screen and (max-width:52em){.n{display:block;overflow-x:auto}figure{overflow-x:auto}svg{min-width:44em}}
@page{size:A4;margin:14mm}
@media print{body{font-size:11px;max-width:none;margin:0;padding:0 1px}tr,figure{break-inside:avoid}h2,h3{break-after:avoid}*{print-color-adjust:exact;-webkit-print-color-adjust:exact}}
</style>
</head>
<body>
<h1>Olivastrum: what a log of a token ring says</h1>
"##;

/// The heading behind the finding.
pub const MEANS: &str = r##"<h2>What that means</h2>
"##;

/// What another plan means.
pub const ANOTHER: &str = r##"<p>The log was made with another plan than the one that it is held to, so its records were not judged.</p>
<p>A line with three numbers is one of the whole plan: 1 is TTRT, 4 the mode, 5 F, 6 g; then what the plan sheet has, and what the log has. A line with a letter is one of a station: its number, w, C, D, P or S, and both again. A line with old is a station that the plan sheet alone has, one with new a station that the log alone has: w, C, D, P, S.</p>
"##;

/// What an accepted log means, and what it does not.
pub const ACCEPTED: &str = r##"<p>A ring that was opened with this plan and keeps the published steps could have written just these records: every station had the token in time, none sent more than its S synchronously, and no frame was begun behind a limit.</p>
<p>It does not say that messages met their deadlines, that every station is switched in again when the log ends (see below what each station did), or that the recorder is honest.</p>
"##;

/// What an accepted log without a visit means.
pub const NO_VISIT: &str = r##"<p>There is no visit in this log, so nothing that a station did was held to the rules. Accepted says only that the log and its plan can be read, and that its marks, if it has any, are 0 or 1 and of stations of the plan. It shows nothing of a trip, and the set must not leave on it.</p>
"##;

/// Behind the sentence of a refusal.
pub const NOT_JUDGED: &str =
    "<p>Nothing of this log was held to the rules, and the set must not leave on it.</p>\n";

/// The five rules.
pub const RULES: &str = r##"<table>
<tr><th>rule</th><th>what a record must have</th><th>what may be wrong where it has not</th></tr>
<tr><td>station</td><td>the station whose turn it is; of a mark a station of the plan, and 0 or 1</td><td>records are missing, doubled or out of order, or the log does not begin where the ring was opened</td></tr>
<tr><td>start</td><td>the start of the visit before and what that one took; the first visit is free; the counter runs past its top to 0</td><td>the counter went wrong, whole rotations are missing or doubled, the walk is not that of the plan, or something was sent that was not written down</td></tr>
<tr><td>limit</td><td>TTRT less F - 1, u and TRT, held at 0; FDDI: TTRT less its timer, held at 0; 0 where the station is switched through</td><td>the station keeps other steps, or another plan, or a mark is missing</td></tr>
<tr><td>synchronous</td><td>at most S; nothing where the station is switched through</td><td>the station sent longer than its share, or the mark that switched it in is missing</td></tr>
<tr><td>asynchronous</td><td>whole frames of one length up to F, each begun below the limit; nothing where the station is switched through</td><td>the station began a frame too late, or a frame too long</td></tr>
</table>
"##;

/// The head of the table of the named record, and what stands below it.
pub const NAMED_HEAD: &str = r##"<table>
<tr><th></th><th>rule</th><th>expected</th><th>found</th><th>where that comes from</th></tr>
"##;

/// What stands below the table of the named record.
pub const NAMED_END: &str = r##"</table>
<p>u is the sum over all stations of S less what the station last sent of it. TRT is the time since the token was last there, in the 2002 edition since the station's last synchronous part began. An FDDI timer counts with TTRT for each time that it is late. All rows are those of the station whose turn it was.</p>
"##;

/// Between the numbers of the plan and its stations.
pub const STATIONS_HEAD: &str = r##"</table>
<table class="n">
<thead>
<tr><th>station</th><th>w</th><th>C</th><th>D</th><th>P</th><th>S</th></tr>
</thead>
"##;

/// The heading of what each station did.
pub const DID: &str = r##"<h2>What each station did</h2>
"##;

/// The head of the table of what each station did.
pub const DID_HEAD: &str = r##"<table class="n">
<thead>
<tr><th>station</th><th>visits</th><th>of them switched through</th><th>longest time between two visits</th><th>at most</th><th>most synchronous in a visit</th><th>S</th><th>synchronous in all</th><th>asynchronous in all</th></tr>
</thead>
"##;

/// The heading of the picture.
pub const PICTURE: &str = r##"<h2>The rotations</h2>
"##;

/// What the picture is made of.
pub const KEY: &str = r##"<p class="key">A line is a rotation, as many visits as there are stations, one behind the other, and as long as the token may be away. A visit that sent nothing has no number. An arrow at the end of a line says that a visit, or its limit, goes on behind it. <span class="ks">synchronous</span> <span class="ka">asynchronous</span> <span class="kw">walk</span> <span class="kl">limit</span> <span class="km">(number) switched through</span> <span class="kb">bound</span> <span class="kf">the named record</span></p>
"##;

/// The sentence of a refusal.
pub fn sentence(number: u8) -> &'static str {
    match number {
        1 => "<p>1: the bytes end inside a field, or before the end field.</p>\n",
        2 => "<p>2: a field may not stand where it does, has a wrong length, or there are too few or too many stations or allocations.</p>\n",
        3 => "<p>3: a byte follows the end field.</p>\n",
        4 => "<p>4: a number of the plan is outside its range.</p>\n",
        5 => "<p>5: the walk times together are 0 or above TTRT.</p>\n",
        7 => "<p>7: the allocation of the plan breaks the token rule or the deadline rule of a station, or an S is off the grid.</p>\n",
        _ => "<p>It is refused.</p>\n",
    }
}

/// Below the finding: whether a plan sheet was named.
pub const PLAN_NAMED: &str = "<p>The log has the plan of the plan sheet that was named.</p>\n";
pub const NO_PLAN_NAMED: &str =
    "<p>No plan sheet was named: whether the log's plan is the one that the set left with was not asked.</p>\n";
