"""How ./olivastrum builds, with a stub for the prover: when, what it says of it, one at a time, and how it is ended.

Each test below has a project of its own and gives what is not as it must be.
"""

import os
import re
import select
import shutil
import signal
import subprocess
import time

from stubs import PATIENCE, await_that, ended, session, write

TESTS = []

FIRST = rb"olivastrum: proving and building the program planner; this happens once and takes minutes\n"
BUILT = rb"olivastrum: built in (\d+ min )?\d+ s\n"
WAITING = rb"olivastrum: waiting for another build in this folder\n"
STOPPED = rb"olivastrum: the build was ended; what is proved so far stays proved\n"

RAN = b"planner --status-on-3 plan\n"


def test(function):
    TESTS.append(function)
    return function


def proved(count, total, crate):
    return rb"olivastrum: proved %d of %d, %s \(\d+ s so far\)\n" % (count, total, crate)


# All that is said of a build by the stub's usual lines. Of a crate that is unchanged rt says nothing; it is counted, and has no line.
ALL = FIRST + proved(2, 4, b"sets") + proved(3, 4, b"plans") + proved(4, 4, b"planner") + BUILT


def wrong(answer, status, out, err):
    """How a call differs from what it must be; `err` is a pattern."""
    found = [] if answer[0] == status else [f"it ended with {answer[0]}, and not {status}"]
    found += [] if answer[1] == out else [f"it wrote {answer[1]!r:.200}, and not {out!r:.200}"]
    return found + ([] if re.fullmatch(err, answer[2]) else [f"on standard error it said {answer[2]!r:.500}"])


def called(project, calls):
    """How the calls of the prover differ from these."""
    said = project.calls()
    return [] if said == calls else [f"the prover's calls are {said}, and not {calls}"]


ONCE = ["begin run planner", "end run planner"]


# ---- when


@test
def first_and_second_use(project):
    found = wrong(project.call("plan", given=b"a request"), 0, RAN + b"a request", ALL)
    found += called(project, ONCE)
    found += wrong(project.call(given=b"a request"), 0, RAN + b"a request", b"")
    return found + called(project, [])


@test
def each_program_by_itself(project):
    project.call("plan")
    found = called(project, ONCE)
    project.does("proved ringer\n")
    said = FIRST.replace(b"planner", b"ringer") + proved(3, 3, b"ringer") + BUILT
    found += wrong(project.call("run", "a plan", "and more"), 0, b"ringer --status-on-3 run a plan and more\n", said)
    found += called(project, ["begin run ringer", "end run ringer"])
    found += wrong(project.call("plan"), 0, RAN, b"")
    return found + called(project, [])


@test
def changes(project):
    project.call("plan")
    project.calls()
    found = []
    crates = open(os.path.join(project.root, "crates.txt")).read()
    for name, text, calls in [
        ("crates/sets/src/lib.rt", "two", ONCE),
        ("crates/units/specs/Lib.antt", "a new folder", ONCE),
        ("crates/planner/stdout", "what it writes", ONCE),
        ("crates/others/src/lib.rt", "not below it", []),
        ("crates/planner/must-fail/a.edit", "a wrong answer", []),
        ("crates/planner/must-fail/b.edit", "a second wrong answer", []),
        ("crates/sets/out/kept", "what the prover keeps", []),
        ("commands.txt", open(os.path.join(project.root, "commands.txt")).read() + "> more\n", []),
        ("crates.txt", crates.replace("others: units", "others: units sets"), []),
        ("crates.txt", crates.replace("sets: units", "sets:"), ONCE),
        ("crates.txt", crates.replace("thiserror", "thiserror anyhow"), ONCE),
    ]:
        project.change(name, text)
        found += wrong(project.call("plan"), 0, RAN, ALL if calls else b"")
        found += [f"{name}, {text:.20}: {fault}" for fault in called(project, calls)]
        found += [f"{name}: {fault}" for fault in wrong(project.call("plan"), 0, RAN, b"") + called(project, [])]
    os.remove(os.path.join(project.root, "crates/units/specs/Lib.antt"))
    project.call("plan")
    found += [f"a file less: {fault}" for fault in called(project, ONCE)]
    os.rmdir(os.path.join(project.root, "crates/units/specs"))
    project.call("plan")
    return found + [f"a folder less: {fault}" for fault in called(project, ONCE)]


@test
def a_change_while_it_builds(project):
    project.does("proved units\nuntil_told go\nproved planner\n")
    run = project.start("plan")
    found = [] if project.begun() else ["the prover did not begin"]
    project.change("crates/sets/src/lib.rt", "two")
    project.tell("go")
    found += wrong(ended(run), 0, RAN, rb"(?s).*" + BUILT) + called(project, ONCE)
    project.call("plan")
    return found + called(project, ONCE)


@test
def a_program_that_is_gone(project):
    project.call("plan")
    os.remove(os.path.join(project.root, "crates", "planner", "out", "planner"))
    project.does("proved planner\n")
    return wrong(project.call("plan"), 0, RAN, FIRST + proved(4, 4, b"planner") + BUILT)


# ---- what it says


@test
def the_provers_own_words(project):
    project.call("plan")
    log = os.path.join(project.root, "target", "built", "planner.log")
    said = open(log).read() if os.path.exists(log) else ""
    lines = ["rattle: a line of the prover's own", "rattle: a second one", "rt: chose --jobs 2 for planner"]
    return [f"{log} has no line `{line}`" for line in lines if line not in said.splitlines()]


@test
def a_line_as_each_is_proved(project):
    project.does("proved units\nuntil_told go\nproved planner\n")
    run = project.start("plan")
    said = run.stderr.readline() + run.stderr.readline()
    project.tell("go")
    found = [] if re.fullmatch(FIRST + proved(1, 4, b"units"), said) else [f"it said {said!r}"]
    return found + wrong(ended(run), 0, RAN, proved(4, 4, b"planner") + BUILT)


@test
def something_not_proved(project):
    log = os.path.join(project.root, "target", "built", "planner.log")
    found = []
    for does, why in [
        ("proved units\nnot_proved sets\n", b": sets is not proved"),
        ("echo 'rt: crates.txt: no line'\nexit 2\n", b""),
        ("kill -9 $$\n", b""),
    ]:
        project.does(does)
        said = rb"(?s).*olivastrum: not built%s; %s has what the prover said\n" % (why, re.escape(log).encode())
        found += wrong(project.call("plan"), 2, b"", said)
        found += [] if "rattle: a second one" in open(log).read() else [f"{log} has not what the prover said"]
    project.does("proved planner\n")
    return found + wrong(project.call("plan"), 0, RAN, FIRST + proved(4, 4, b"planner") + BUILT)


@test
def an_old_program_is_not_run(project):
    project.call("plan")
    project.change("crates/sets/src/lib.rt", "two")
    project.does("exit 1\n")
    found = wrong(project.call("plan"), 2, b"", rb"(?s).*olivastrum: not built; .*")
    return found + wrong(project.call("plan"), 2, b"", rb"(?s).*olivastrum: not built; .*")


# ---- one at a time


@test
def two_at_once(project):
    project.does("proved units\nuntil_told go\nproved planner\n")
    runs = [project.start("plan"), project.start("plan")]
    firsts = [run.stderr.readline() for run in runs]
    project.tell("go")
    answers = [(status, out, first + err) for first, (status, out, err) in zip(firsts, map(ended, runs))]
    waited, built = sorted(answers, key=lambda answer: len(answer[2]))
    said = FIRST + proved(1, 4, b"units") + proved(4, 4, b"planner") + BUILT
    return wrong(waited, 0, RAN, WAITING) + wrong(built, 0, RAN, said) + called(project, ONCE)


@test
def many_at_once_and_none_builds(project):
    project.does("sleep 1\nexit 1\n")
    runs = [project.start("plan") for _ in range(4)]
    found = []
    for run in runs:
        found += wrong(ended(run), 2, b"", rb"(%s)?%solivastrum: not built; .*\n" % (WAITING, FIRST))
    return found + called(project, 4 * ONCE)


@test
def two_programs_at_once(project):
    project.does("until_told go\nproved $name\n")
    runs = [project.start("plan"), project.start("run", "x")]
    firsts = [run.stderr.readline() for run in runs]
    project.tell("go")
    found = [] if sum(bool(re.fullmatch(WAITING, first)) for first in firsts) == 1 else [f"first they said {firsts}"]
    found += wrong(ended(runs[0]), 0, RAN, rb"(?s).*" + BUILT) + wrong(ended(runs[1]), 0, b"ringer --status-on-3 run x\n", rb"(?s).*" + BUILT)
    said = project.calls()
    order = [line.split()[0] for line in said] == ["begin", "end"] * 2 and said[0][5:] == said[1][3:]
    return found + ([] if order else [f"the prover's calls are {said}"])


@test
def the_program_does_not_hold_the_lock(project):
    run = project.start("plan", stdin=subprocess.PIPE)
    run.stdout.readline()
    project.change("crates/sets/src/lib.rt", "two")
    found = wrong(project.call("plan"), 0, RAN, ALL)
    return found + wrong(ended(run, b""), 0, b"", rb"(?s).*")


def building(project, **how):
    """A call whose prover goes on and on, and the prover."""
    project.does("proved units\nsleep 100 &\nsleep 100\n")
    run = project.start("plan", **how)
    project.begun()
    prover = project.prover()
    await_that(lambda: len(session(prover)) == 3)
    return run, prover


def free_again(project, prover):
    """Nothing is left of a prover, and the next call builds at once."""
    found = [] if await_that(lambda: not session(prover)) else ["the prover goes on"]
    project.calls()
    project.does("proved planner\n")
    found += wrong(project.call("plan"), 0, RAN, FIRST + proved(4, 4, b"planner") + BUILT)
    project.prover()
    return found + called(project, ONCE)


@test
def killed_with_its_prover(project):
    run, prover = building(project)
    run.kill()
    os.killpg(prover, signal.SIGKILL)
    ended(run)
    return free_again(project, prover)


@test
def killed_without_its_prover(project):
    project.does("proved units\nuntil_told go\nproved planner\n")
    run = project.start("plan")
    found = [] if project.begun() else ["the prover did not begin"]
    run.kill()
    ended(run)
    # The prover goes on for a while, and nobody else begins before it has ended.
    second = project.start("plan")
    said = second.stderr.readline()
    project.tell("go")
    found += [] if re.fullmatch(WAITING, said) else [f"it said {said!r}"]
    found += wrong(ended(second), 0, RAN, rb"(?s)" + FIRST + rb".*" + BUILT)
    return found + called(project, 2 * ONCE)


@test
def ended_by_a_signal(project):
    found = []
    for number in [signal.SIGTERM, signal.SIGINT, signal.SIGHUP]:
        run, prover = building(project)
        run.send_signal(number)
        found += wrong(ended(run), -number, b"", FIRST + rb"(%s)?" % proved(1, 4, b"units") + STOPPED)
        found += free_again(project, prover)
        project.change("crates/sets/src/lib.rt", "two")
    return found


@test
def a_waiting_call_is_ended(project):
    run, prover = building(project)
    second = project.start("plan")
    said = second.stderr.readline()
    second.send_signal(signal.SIGTERM)
    found = [] if re.fullmatch(WAITING, said) else [f"it said {said!r}"]
    found += wrong(ended(second), -signal.SIGTERM, b"", b"")
    run.send_signal(signal.SIGTERM)
    ended(run)
    return found + free_again(project, prover)


# ---- on a terminal


class Terminal:
    """A call on a terminal of its own, which is its standard input and its standard error."""

    def __init__(self, project, *words):
        self.side, other = os.openpty()
        script = [os.path.join(project.root, "olivastrum"), *words]
        self.run = subprocess.Popen(["setsid", "--ctty", *script], env=project.environment(), stdin=other, stdout=subprocess.PIPE, stderr=other)
        os.close(other)
        self.said = b""

    def read(self, until=None):
        """Reads on, to the end or until this was said; a call that takes too long is killed."""
        end = time.monotonic() + PATIENCE
        while not (until and re.search(until, self.said)):
            if not select.select([self.side], [], [], max(0, end - time.monotonic()))[0]:
                self.run.kill()
                break
            try:
                self.said += os.read(self.side, 1_000)
            except OSError:
                break

    def type(self, keys):
        os.write(self.side, keys)

    def end(self):
        self.read()
        out = self.run.stdout.read()
        self.run.stdout.close()
        os.close(self.side)
        return self.run.wait(), out, self.said.replace(b"\r\n", b"\n")


@test
def a_line_that_moves_on(project):
    project.does("proved units\nuntil_told 1\nproved sets\nuntil_told 2\nproved planner\nuntil_told 3\n")
    terminal = Terminal(project, "plan")
    terminal.read(until=rb"(\r[^\r]*units[^\r]*){3}")
    project.tell("1")
    terminal.read(until=rb"sets")
    project.tell("2")
    terminal.read(until=rb"planner ")
    project.tell("3")
    terminal.read(until=rb"built in")
    terminal.type(b"\x04")
    answer = terminal.end()
    moves = b"".join(rb"(\rolivastrum: proved %d of 4, %s \(\d+ s so far\) *)+" % part for part in [(1, b"units"), (2, b"sets"), (4, b"planner")])
    found = wrong(answer, 0, RAN, FIRST + rb"(\rolivastrum: proved 0 of 4 \(\d+ s so far\) *)*" + moves + rb"\n" + BUILT)
    seconds = [int(text) for text in re.findall(rb"\((\d+) s so far", answer[2])]
    if seconds != sorted(seconds) or len(set(seconds)) < 2:
        found.append(f"the seconds are {seconds}")
    # Where a shorter line follows a longer one, nothing of the longer one stays.
    lengths = [len(line) for line in answer[2].split(b"\n")[1].split(b"\r")[1:]]
    return found + ([] if lengths == sorted(lengths) else [f"the lines are {lengths} long"])


@test
def an_interrupt_from_the_terminal(project):
    project.does("proved units\nsleep 100 &\nsleep 100\n")
    terminal = Terminal(project, "plan")
    terminal.read(until=rb"units")
    prover = project.prover()
    found = [] if await_that(lambda: len(session(prover)) == 3) else ["the prover did not begin"]
    begun = time.monotonic()
    terminal.type(b"\x03")
    moves = rb"(\rolivastrum: proved \d of 4(, units)? \(\d+ s so far\) *)+(\^C)?\n"
    found += wrong(terminal.end(), -signal.SIGINT, b"", FIRST + moves + STOPPED)
    if time.monotonic() - begun > 15:
        found.append("it ended late")
    return found + free_again(project, prover)


# ---- what a caller may leave out


@test
def descriptors_of_the_caller(project):
    script = f'"{project.root}/olivastrum" plan'
    found = []
    for about, words, status, out, err in [
        ("standard error closed", f"echo in | {script} 2>&-", 0, RAN + b"in\n", b""),
        ("standard error full", f"echo in | {script} 2>/dev/full", 0, RAN + b"in\n", b""),
        ("standard error unread", f"exec 3>&1; {{ {script} 2>&1 >&3 3>&- </dev/null; echo $? >&3; }} | true", 0, RAN + b"0\n", b""),
        ("standard input closed", f"{script} <&-", 0, RAN, rb"(?s)olivastrum: proving.*" + BUILT + rb"cat: .*\n"),
        ("standard output closed", f"{script} >&-", 2, b"", b"olivastrum: standard output is closed\n"),
        ("descriptor 9 of the caller", f"echo in | {script} 9>&1 && echo more >&9", 0, RAN + b"in\nmore\n", ALL),
    ]:
        words = f"exec 9>&1; {words}" if "9" in about else words
        done = subprocess.run(["sh", "-c", words], env=project.environment(), capture_output=True, timeout=PATIENCE)
        found += [f"{about}: {fault}" for fault in wrong((done.returncode, done.stdout, done.stderr), status, out, err)]
        found += [f"{about}: {fault}" for fault in called(project, [] if "output" in about else ONCE)]
        project.change("crates/sets/src/lib.rt", "two")
    return found


@test
def what_building_needs(project):
    found = wrong(project.call("plan", kit=False), 2, b"", b"olivastrum: the command rt of the Rattle kit is not on the PATH\n")
    for tool in ["flock", "setsid"]:
        with_one_less = os.path.join(project.kit, f"no {tool}")
        os.mkdir(with_one_less)
        for name in os.listdir(project.system):
            if name != tool:
                os.symlink(os.path.join(project.system, name), os.path.join(with_one_less, name))
        project.system, kept = with_one_less, project.system
        said = f"olivastrum: the command {tool} of util-linux is not on the PATH\n".encode()
        found += wrong(project.call("plan"), 2, b"", said)
        project.system = kept
    stub = os.path.join(project.kit, "machine", "flock")
    write(stub, "#!/bin/sh\necho flock: no locks here >&2\nexit 71\n", 0o755)
    found += wrong(project.call("plan"), 2, b"", b"flock: no locks here\n")
    os.remove(stub)
    shutil.rmtree(os.path.join(project.root, "target"))
    write(os.path.join(project.root, "target"), "")
    said = re.escape(f"olivastrum: {project.root}/target/built cannot be written\n").encode()
    return found + wrong(project.call("plan"), 2, b"", said) + called(project, [])


# ---- what needs no build

NO_COMMAND = rb"olivastrum: no command %s\nolivastrum: `olivastrum help` lists the commands\n"
RUN = rb"usage: olivastrum run PLAN         run  it\n"
HELP = b"""olivastrum: a title

  olivastrum plan < REQUEST   print the plan
  olivastrum run PLAN         run  it
  olivastrum help             print this

  olivastrum plan
"""


@test
def words_without_a_build(project):
    found = wrong(project.call("help", kit=False), 0, HELP, b"")
    for words, said in [
        (["pln"], NO_COMMAND % b"pln"),
        ([""], NO_COMMAND % b""),
        (["#"], NO_COMMAND % b"#"),
        ([">"], NO_COMMAND % b">"),
        (["plan "], NO_COMMAND % rb"plan\?"),
        (["pl*n"], NO_COMMAND % rb"pl\*n"),
        (["--status-on-3"], NO_COMMAND % b"--status-on-3"),
        (["-n"], NO_COMMAND % b"-n"),
        (["\\c"], NO_COMMAND % rb"\\c"),
        (["a\nb\x7f\x1b ~!\u00e9"], NO_COMMAND % rb"a\?b\?\?\?~!\?\?"),
        (["x" * 5_000, "and more"], NO_COMMAND % (64 * b"x")),
        (["plan", "x"], rb"usage: olivastrum plan < REQUEST   print the plan\n"),
        (["help", ""], rb"usage: olivastrum help             print this\n"),
        (["run"], RUN),
        (["run", "1", "2", "3"], RUN),
    ]:
        found += [f"{words}: {fault}" for fault in wrong(project.call(*words, kit=False), 2, b"", said)]
    found += [] if not os.path.exists(os.path.join(project.root, "target")) else ["something was built"]
    return found + called(project, [])


@test
def words_that_cannot_be_said(project):
    script = f'"{project.root}/olivastrum"'
    full = b"olivastrum: standard output: No space left on device\n"
    found = []
    for words, out, err in [
        (f"{script} pln 2>&-", b"", b""),
        (f"{script} pln 2>/dev/full", b"", b""),
        (f"{script} run 2>&-", b"", b""),
        (f"{script} run 2>/dev/full", b"", b""),
        (f"{script} help >/dev/full", b"", full),
        (f"{script} help >&-", b"", b"olivastrum: standard output is closed\n"),
        (f"{script} help >/dev/full 2>&-", b"", b""),
    ]:
        done = subprocess.run(["sh", "-c", words], env=project.environment(), capture_output=True, timeout=PATIENCE)
        found += [f"{words}: {fault}" for fault in wrong((done.returncode, done.stdout, done.stderr), 2, out, err)]
    reading, writing = os.pipe()
    os.close(reading)
    run = project.start("help", stdout=writing)
    os.close(writing)
    return found + wrong(ended(run), 2, None, b"olivastrum: standard output: Broken pipe\n")


@test
def no_table(project):
    path = os.path.join(project.root, "commands.txt")
    os.remove(path)
    said = re.escape(f"olivastrum: this copy is not whole: {path} cannot be read\n").encode()
    return wrong(project.call("help"), 2, b"", said) + wrong(project.call("plan"), 2, b"", said) + called(project, [])


# ---- on other machines


@test
def on_another_machine(project):
    write(os.path.join(project.kit, "machine", "uname"), "#!/bin/sh\necho aarch64\n", 0o755)
    found = wrong(project.call("plan", given=b"in"), 0, b"emulated\n" + RAN + b"in", ALL)
    needs = rb"olivastrum: the programs are for x86-64; to run on this machine, aarch64, they need the %s is not on the PATH\n"
    found += wrong(project.call("plan", kit=False), 2, b"", needs % b"C library of the Rattle kit, whose command rt")
    os.remove(os.path.join(project.kit, "machine", "qemu-x86_64"))
    return found + wrong(project.call("plan"), 2, b"", needs % b"emulator qemu-x86_64, which")


@test
def a_program_that_tells_nothing(project):
    found = []
    for ends, status, said in [
        ("exit 0", 2, rb"olivastrum: the program .*/planner cannot be run here\n"),
        ("exit 1", 2, rb"olivastrum: the program .*/planner cannot be run here\n"),
        ("exit 127", 2, rb"olivastrum: the program .*/planner cannot be run here\n"),
        ("kill -9 $$", 137, rb"(Killed\n)?"),
        ("printf 1 >&3", 1, b""),
        ("printf 2 >&3; exit 3", 2, b""),
    ]:
        write(os.path.join(project.kit, "program"), f"#!/bin/sh\n{ends}\n", 0o755)
        project.change("crates/sets/src/lib.rt", ends)
        found += [f"{ends}: {fault}" for fault in wrong(project.call("plan"), status, b"", ALL + said)]
    return found
