"""What ./archive writes for people: bin/olivastrum, which builds nothing and needs no kit on x86-64, and the manual page.

The prover is a stub, and the table of commands is the project's own. Each test gives what is not as it must be.
"""

import os
import re
import shutil
import subprocess

from building import wrong
from stubs import PATIENCE, PROGRAMS, ROOT, ROWS, content, ended, words_of, write

TESTS = []


def test(function):
    TESTS.append(function)
    return function


FILES = ["bin/olivastrum", "include/olivastrum.h", "lib/libolivastrum.a", "lib/pkgconfig/olivastrum.pc"]
FILES += [*(f"libexec/olivastrum/{name}" for name in PROGRAMS), "share/man/man1/olivastrum.1", "share/olivastrum/commands.txt"]


def archived(project, folder="an installed one", **how):
    """./archive of the project with its own table: the folder, and status, standard output and standard error."""
    crates = "units:\nhost_c staticlib: units\n" + "".join(f"{name}: units\n" for name in PROGRAMS)
    project.change("crates.txt", crates)
    project.change("commands.txt", content("commands.txt"))
    for name in PROGRAMS:
        project.change(f"crates/{name}/src/main.rt", "one")
    project.does("proved $name\n")
    archive = os.path.join(project.root, "archive")
    done = project.call(folder, script=archive, **how)
    return os.path.join(project.kit, folder), done


def listed(folder):
    return sorted(os.path.relpath(os.path.join(path, name), folder) for path, _, names in os.walk(folder) for name in names)


def answers(project, script, before=b"", **how):
    """Each command through the installed script, without a word on standard error."""
    found = []
    for row in ROWS:
        words = words_of(row)
        said = project.call(*words, given=b"in", script=script, kit=False, **how)
        if row[0] == "help":
            found += wrong((said[0], len(said[1].splitlines()) > len(ROWS), said[2]), 0, True, b"")
        else:
            out = before + f"{row[3]} --status-on-3 {' '.join(words)}\n".encode() + b"in"
            found += [f"{row[0]}: {fault}" for fault in wrong(said, 0, out, b"")]
    return found


# ---- the program


@test
def what_is_written(project):
    folder, done = archived(project)
    found = [] if done[:2] == (0, b"") else [f"./archive ended with {done}"]
    found += [] if listed(folder) == FILES else [f"./archive wrote {listed(folder)}"]
    found += [] if b"the prover's own" not in done[2] else ["./archive says what the prover says"]
    calls = ["lib host_c", *(f"run {name}" for name in PROGRAMS)]
    expected = [f"{when} {call}" for call in calls for when in ["begin", "end"]]
    said = project.calls()
    return found + ([] if said == expected else [f"the prover's calls are {said}"])


@test
def without_the_kit(project):
    folder, _ = archived(project)
    shutil.rmtree(project.root)
    found = answers(project, os.path.join(folder, "bin", "olivastrum"))
    # It may be moved, into a folder of any name, and linked to.
    moved = os.path.join(project.kit, "moved", "to a folder")
    os.makedirs(os.path.dirname(moved))
    os.rename(folder, moved)
    found += answers(project, os.path.join(moved, "bin", "olivastrum"), cwd=moved)
    os.symlink("moved/to a folder/bin/olivastrum", os.path.join(project.kit, "a link"))
    os.makedirs(os.path.join(project.kit, "other bin"))
    os.symlink("../a link", os.path.join(project.kit, "other bin", "olivastrum"))
    found += answers(project, "./a link")
    found += answers(project, "./other bin/olivastrum", cwd=project.kit)
    os.symlink(moved, os.path.join(project.kit, "the folder"))
    found += answers(project, "./the folder/bin/olivastrum", cwd=project.kit)
    # A relative path is taken from the caller's folder, whatever its shell looks through.
    words = ["sh", "-c", 'cd "$1" && CDPATH=/ exec bin/olivastrum plan', "sh", moved]
    done = subprocess.run(words, env=project.environment(kit=False), stdin=subprocess.DEVNULL, capture_output=True, timeout=PATIENCE)
    found += [] if done.returncode == 0 else [f"with a CDPATH it says {done.stderr!r}"]
    found += [] if listed(moved) == FILES else [f"it made {listed(moved)}"]
    usage = rb"olivastrum: no command pln\nolivastrum: `olivastrum help` lists the commands\n"
    return found + wrong(project.call("pln", script="./a link", kit=False), 2, b"", usage)


@test
def help_is_the_same(project):
    folder, _ = archived(project)
    here = project.call("help", kit=False)
    there = project.call("help", script=os.path.join(folder, "bin", "olivastrum"), kit=False)
    return [] if here == there and here[0] == 0 else [f"the project says {here}, and the installed one {there}"]


@test
def on_another_machine(project):
    folder, _ = archived(project)
    write(os.path.join(project.kit, "machine", "uname"), "#!/bin/sh\necho aarch64\n", 0o755)
    script = os.path.join(folder, "bin", "olivastrum")
    needs = rb"olivastrum: the programs are for x86-64; to run on this machine, aarch64, they need the C library of the Rattle kit, whose command rt is not on the PATH\n"
    found = wrong(project.call("plan", script=script, kit=False), 2, b"", needs)
    found += wrong(project.call("help", script=script, kit=False)[::2] + (b"",), 0, b"", b"")
    plan = next(row[3] for row in ROWS if row[0] == "plan")
    out = f"emulated\n{plan} --status-on-3 plan\n".encode()
    project.calls()
    found += wrong(project.call("plan", script=script), 0, out, b"")
    return found + ([] if project.calls() == [] else ["the prover was called"])


@test
def a_part_is_gone(project):
    folder, _ = archived(project)
    script = os.path.join(folder, "bin", "olivastrum")
    shutil.rmtree(os.path.join(folder, "libexec"))
    found = wrong(project.call("plan", script=script, kit=False), 2, b"", rb"(.*not found\n)?olivastrum: the program .* cannot be run here\n")
    os.remove(os.path.join(folder, "share/olivastrum/commands.txt"))
    return found + wrong(project.call("plan", script=script, kit=False), 2, b"", rb"olivastrum: this copy is not whole: .*commands.txt cannot be read\n")


# ---- writing it


@test
def nothing_is_written_of_what_is_not_proved(project):
    archived(project)
    found = []
    for does, why in [
        ("not_proved host_c\n", rb"host_c is not proved"),
        (f"[ $1 = lib ] || not_proved {PROGRAMS[-1]}\n", PROGRAMS[-1].encode() + rb" is not proved"),
    ]:
        for name in PROGRAMS:
            project.change(f"crates/{name}/src/main.rt", "two")
        project.does(does)
        folder = os.path.join(project.kit, "not written")
        done = project.call(folder, script=os.path.join(project.root, "archive"))
        said = rb"(?s).*archive: not built: %s; .*\.log has what the prover said\narchive: nothing was written\n" % why
        found += wrong(done, 1, b"", said)
        found += ["something was written"] if os.path.exists(folder) else []
    return found


@test
def what_archive_needs(project):
    archive = os.path.join(project.root, "archive")
    found = wrong(project.call("x", script=archive, kit=False), 2, b"", b"archive: the command rt of the Rattle kit is not on the PATH\n")
    for words in [[], [""], ["a", "b"]]:
        found += wrong(project.call(*words, script=archive), 2, b"", rb"usage: \./archive DIR\n")
    found += [] if project.calls() == [] else ["the prover was called"]
    return found + wrong(archived(project, "/dev/null/x")[1], 2, b"", rb"(?s).*archive: /dev/null/x cannot be written\n")


@test
def written_over_one_in_use(project):
    folder, _ = archived(project)
    script = os.path.join(folder, "bin", "olivastrum")
    run = project.start("plan", script=script, kit=False, stdin=subprocess.PIPE)
    said = run.stdout.readline()
    before = [os.stat(os.path.join(folder, name)).st_ino for name in FILES]
    found = [] if archived(project)[1][0] == 0 else ["it was not written again"]
    after = [os.stat(os.path.join(folder, name)).st_ino for name in FILES]
    found += [f"{name} was changed where it stood" for name, old, new in zip(FILES, before, after) if old == new]
    out, _ = run.communicate(b"in", timeout=PATIENCE)
    found += [] if said and out == b"in" and run.returncode == 0 else [f"the one in use said {said} and {out}, and ended with {run.returncode}"]
    return found + ([] if listed(folder) == FILES else [f"there is {listed(folder)}"])


@test
def it_waits_for_a_build(project):
    archived(project)
    project.calls()
    name = PROGRAMS[0]
    project.change(f"crates/{name}/src/main.rt", "two")
    project.does("until_told go\nproved $name\n")
    run = project.start(*words_of(next(row for row in ROWS if row[3] == name and row[0] != "help")))
    run.stderr.readline()
    second = project.start("x", script=os.path.join(project.root, "archive"))
    said = second.stderr.readline()
    project.tell("go")
    found = [] if said == b"archive: waiting for another build in this folder\n" else [f"it said {said!r}"]
    found += [f"it ended with {answer[0]}" for answer in map(ended, [run, second]) if answer[0] != 0]
    said = [line.split()[0] for line in project.calls()]
    return found + ([] if said == ["begin", "end"] * (len(said) // 2) else ["it did not wait"])


# ---- the manual page


def page_of(project):
    folder, _ = archived(project)
    with open(os.path.join(folder, "share/man/man1/olivastrum.1"), encoding="ascii") as file:
        return file.read()


def rows_under(first):
    """The rows of the guide's table whose first column has this name."""
    for path in ["docs/PLANNING.md", "README.md"]:
        text = content(path) if os.path.exists(os.path.join(ROOT, path)) else ""
        table = re.search(r"^\| %s \|.*\n\|---.*\n((?:\|.*\n)+)" % re.escape(first), text, re.MULTILINE)
        if table:
            return [tuple(cell.strip() for cell in row.strip("|\n").split("|", 1)) for row in table.group(1).splitlines()]
    return []


def plain(text):
    """A text of the guide or of the page as its words alone."""
    text = text.replace("−", "-").replace("τ", "tau").replace("\\(*t", "tau").replace("./olivastrum", "olivastrum")
    return re.sub(r"\\f[BIR]|[`\\]", "", text).split()


def entries(page, heading):
    """What stands under a heading, by what each begins with."""
    section = re.search(r"^\.SH %s\n(.*?)(?=^\.SH|\Z)" % heading, page, re.MULTILINE | re.DOTALL)
    found = re.findall(r"^\.TP\n(.*)\n(.*)$", section.group(1) if section else "", re.MULTILINE)
    return [(plain(name.removeprefix(".B ")), plain(text)) for name, text in found]


def call_and_rest(usage):
    """The call of a command's line, in capitals what is to be filled in, and what it does."""
    call = re.match(r"olivastrum [a-z-]+( (<|\[?[A-Z]+\]?))*", usage).group()
    return call, usage.removeprefix(call)


@test
def the_page_has_all(project):
    page = page_of(project)
    numbers, statuses = rows_under("No."), rows_under("status")
    header = re.findall(r"^    OLIVASTRUM_\w+ = (\d+)", content("include", "olivastrum.h"), re.MULTILINE)
    found = [] if [row[0] for row in numbers] == header[1:] else [f"the guide's numbers are not the header's, {header}"]
    found += [] if [row[0] for row in statuses] == ["0", "1", "2", "other"] else ["the guide's statuses are not 0, 1, 2 and other"]
    calls = [call_and_rest(row[4]) for row in ROWS]
    for heading, rows in [("COMMANDS", calls), ("EXIT STATUS", statuses), ("REFUSAL NUMBERS", numbers)]:
        expected = [(plain(name), plain(text)) for name, text in rows]
        said = entries(page, heading)
        found += [] if said == expected else [f"{heading} has {said}, and not {expected}"]
    version = re.search(r'#define OLIVASTRUM_VERSION "(.*)"', content("include", "olivastrum.h")).group(1)
    found += [] if f'"Olivastrum {version}"' in page.splitlines()[0] else [f"its first line is {page.splitlines()[0]}"]
    others = [line[2:] for line in content("commands.txt").splitlines() if line.startswith("> ")][1:]
    words = [plain(line) for line in page.splitlines()]
    return found + [f"it has no line `{line}`" for line in others if plain(line) not in words]


@test
def the_page_is_shown(project):
    if not shutil.which("groff"):
        return []
    page = page_of(project)
    done = subprocess.run(["groff", "-ww", "-man", "-Tutf8", "-P-cbou"], input=page.encode(), capture_output=True, timeout=PATIENCE)
    found = [] if (done.returncode, done.stderr) == (0, b"") else [f"groff ended with {done.returncode} and said {done.stderr!r}"]
    shown = " ".join(done.stdout.decode().replace("−", "-").split())
    calls = [call_and_rest(row[4])[0] for row in ROWS]
    return found + [f"`{call}` is not shown" for call in calls if call not in shown]


@test
def a_page_that_lacks_something(project):
    found = []
    guide = "docs/PLANNING.md" if os.path.exists(os.path.join(project.root, "docs/PLANNING.md")) else "README.md"
    for name, old, new in [
        (guide, "| No. | ", "| Nr. | "),
        (guide, "| status | ", "| state | "),
        (guide, "The walk time τ", "The walk time θ"),
        ("include/olivastrum.h", '#define OLIVASTRUM_VERSION "', '#define VERSION "'),
        ("commands.txt", "olivastrum: ", ""),
    ]:
        text = content(name)
        project.change(name, text.replace(old, new) if name != "commands.txt" else "# nothing\n")
        done = subprocess.run([os.path.join(project.root, "manual")], capture_output=True, timeout=PATIENCE)
        failed = done.returncode == 2 and done.stdout == b"" and done.stderr.splitlines()[-1].startswith(b"manual: ")
        found += [] if failed else [f"without `{old}` of {name} the page is made"]
        project.change(name, text)
    return found
