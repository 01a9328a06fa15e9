"""A project in a folder of its own whose prover is a stub: building it takes seconds and proves nothing.

It has the scripts of this project, and a table of commands and crates of its own. The stub `rt` prints lines as rt does,
and does else what a test asks for; the program that it then makes says its words and what it reads. `uname` is a stub
too, so that what is done on x86-64 and on other machines is tried on every machine.
"""

import os
import shutil
import subprocess
import time

ROOT = os.path.dirname(os.path.dirname(os.path.dirname(os.path.abspath(__file__))))

# How long a call may take, in seconds.
PATIENCE = 60


def content(*path):
    """A file of this project."""
    with open(os.path.join(ROOT, *path), encoding="utf-8") as file:
        return file.read()


# The rows of this project's table of commands: word, least, most, program and usage; and its programs.
ROWS = [line.split(None, 4) for line in content("commands.txt").splitlines() if line and line[0] not in "#>"]
PROGRAMS = sorted({row[3] for row in ROWS})


def words_of(row):
    """Words that ask for the command of a row; a file of such a name is not there and cannot be made."""
    return [row[0], *(f"no such folder/word {place}" for place in range(int(row[1])))]


RT = r"""#!/bin/sh
# In place of rt, in the folder of a crate: `does` says what it prints and how it ends, `calls` keeps when it began and when it ended.
kit=$(dirname "$(dirname "$0")") name=$(basename "$PWD")
echo "begin $1 $name" >>"$kit/calls"
echo $$ >"$kit/pid.new" && mv "$kit/pid.new" "$kit/pid"
trap 'echo "end $1 $name" >>"$kit/calls"' EXIT
echo "rattle: a line of the prover's own"
echo "rattle: a second one" >&2
begun() { echo "rt: chose --jobs 2 for $1"; }
proved() { begun "$1"; echo "crate $1: modules loaded=2 checked=3"; echo "logic=proved functions=1"; }
not_proved() { begun "$1"; echo "logic=not-proved"; exit 1; }
until_told() { turns=0; while [ ! -f "$kit/told $1" ] && [ $turns -lt 900 ]; do sleep 0.1; turns=$((turns + 1)); done; }
. "$kit/does"
mkdir -p out
case $1 in
    run)
        cp "$kit/program" "out/$name"
        echo "rt: running out/$name; to give it other input, run that file yourself" >&2
        "out/$name"
        ;;
    lib) echo "the archive of $name" >"out/lib$name.a" ;;
esac
"""

PROGRAM = r"""#!/bin/sh
# In place of a program: it says its words and what it reads, and that it is done. Its standard error is open in any case.
{ true 4>&2; } || exit
echo "$(basename "$0") $*"
cat
printf 0 >&3
"""

EMULATOR = r"""#!/bin/sh
# In place of the emulator, which is given the kit's loader and the folder of its libraries.
toolchain=$(dirname "$(dirname "$0")")/toolchain
[ "$1 $2 $3" = "$toolchain/lib/ld-linux-x86-64.so.2 --library-path $toolchain/lib" ] || exit 9
shift 3
echo emulated
exec "$@"
"""

# `planner` is made by four crates, of which its own line names one; `ringer` by three.
CRATES = """# a comment
units:
sets: units
plans: units sets # and one here
others: units
host_c staticlib: units
planner: plans thiserror
ringer: others units
"""

COMMANDS = """# WORD LEAST MOST PROGRAM USAGE
> olivastrum: a title
>
plan 0 0 planner olivastrum plan < REQUEST   print the plan
run  1 2 ringer  olivastrum run PLAN         run  it
help 0 0 planner olivastrum help             print this
>
>   olivastrum plan
"""

# What the stub does where a test asks for nothing else.
DOES = "proved sets\nproved plans\nproved planner\n"


def write(path, text, mode=0o644):
    os.makedirs(os.path.dirname(path), exist_ok=True)
    with open(path, "w") as file:
        file.write(text)
    os.chmod(path, mode)


def system_path(folder):
    """A PATH of the system's own folders, as links in one folder, without `rt` and an emulator."""
    farm = os.path.join(folder, "system")
    os.makedirs(farm, exist_ok=True)
    for place in os.defpath.split(os.pathsep):
        for name in os.listdir(place) if os.path.isdir(place) else []:
            if name not in ["rt", "qemu-x86_64"] and not os.path.lexists(os.path.join(farm, name)):
                os.symlink(os.path.join(place, name), os.path.join(farm, name))
    return farm


class Project:
    """The project in `folder`, and beside it the kit, whose `rt` is found first where `kit` is asked for."""

    def __init__(self, folder, system, machine="x86_64"):
        self.root = os.path.join(folder, "the project")
        self.kit = os.path.join(folder, "kit")
        self.system = system
        for name in ["olivastrum", "build.sh", "archive", "manual", "README.md", "docs/PLANNING.md", "include/olivastrum.h"]:
            if os.path.exists(os.path.join(ROOT, name)):
                os.makedirs(os.path.dirname(os.path.join(self.root, name)), exist_ok=True)
                shutil.copy(os.path.join(ROOT, name), os.path.join(self.root, name))
        write(os.path.join(self.root, "crates.txt"), CRATES)
        write(os.path.join(self.root, "commands.txt"), COMMANDS)
        for crate in ["units", "sets", "plans", "others", "host_c", "planner", "ringer"]:
            self.change(f"crates/{crate}/src/lib.rt", "one")
        write(os.path.join(self.kit, "bin", "rt"), RT, 0o755)
        write(os.path.join(self.kit, "program"), PROGRAM, 0o755)
        write(os.path.join(self.kit, "machine", "qemu-x86_64"), EMULATOR, 0o755)
        write(os.path.join(self.kit, "machine", "uname"), f"#!/bin/sh\necho {machine}\n", 0o755)
        self.does(DOES)

    def change(self, name, text):
        write(os.path.join(self.root, name), text)

    def does(self, text):
        """What the prover prints, and how it ends, from now on."""
        write(os.path.join(self.kit, "does"), text)

    def tell(self, word):
        """The prover goes on behind `until_told` of this word."""
        write(os.path.join(self.kit, f"told {word}"), "")

    def begun(self):
        """Waits until a prover has begun; whether one did in time."""
        return await_that(lambda: os.path.exists(os.path.join(self.kit, "pid")))

    def calls(self):
        """When the prover began and ended, and forgets it."""
        path = os.path.join(self.kit, "calls")
        if not os.path.exists(path):
            return []
        with open(path) as file:
            said = file.read().splitlines()
        os.remove(path)
        return said

    def prover(self):
        """The process of the prover that has begun, and forgets it."""
        path = os.path.join(self.kit, "pid")
        with open(path) as file:
            leader = int(file.read())
        os.remove(path)
        return leader

    def environment(self, kit=True):
        paths = [os.path.join(self.kit, "machine"), *([os.path.join(self.kit, "bin")] if kit else []), self.system]
        return {**os.environ, "PATH": os.pathsep.join(paths)}

    def start(self, *words, script=None, kit=True, **how):
        """A call that goes on; its input is empty where nothing else is said."""
        how = {"stdin": subprocess.DEVNULL, "stdout": subprocess.PIPE, "stderr": subprocess.PIPE, "cwd": self.kit, **how}
        return subprocess.Popen([script or os.path.join(self.root, "olivastrum"), *words], env=self.environment(kit), **how)

    def call(self, *words, given=b"", **how):
        """Status, standard output and standard error."""
        return ended(self.start(*words, stdin=subprocess.PIPE, **how), given)


def ended(run, given=None):
    try:
        out, err = run.communicate(given, timeout=PATIENCE)
    except subprocess.TimeoutExpired:
        run.kill()
        out, err = run.communicate()
        return "no end", out, err
    return run.returncode, out, err


def await_that(holds):
    """Waits until something holds; whether it did in time."""
    end = time.monotonic() + PATIENCE
    while time.monotonic() < end:
        if holds():
            return True
        time.sleep(0.05)
    return False


def session(leader):
    """The processes of a session, but zombies."""
    found = []
    for entry in filter(str.isdigit, os.listdir("/proc")):
        try:
            with open(f"/proc/{entry}/stat") as file:
                state, _, _, of = file.read().rpartition(")")[2].split()[:4]
        except OSError:
            continue
        if int(of) == leader and state != "Z":
            found.append(int(entry))
    return found
