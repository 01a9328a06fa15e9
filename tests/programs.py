"""The programs that the tests run: where they stand, how they are built, how they run, and what they answer.

What is proved is for x86-64. The kit has a compiler, a linker, a C library and its loader for it; on other machines an
emulator must be on the path. A program in C is linked with the archive of the exported functions; a program of crates/
stands in the folder out/ of its crate. Both run by `running`.
"""

import collections
import functools
import hashlib
import os
import platform
import shutil
import subprocess
import sys
import tempfile

ROOT = os.path.dirname(os.path.dirname(os.path.abspath(__file__)))
SECOND = os.path.join(ROOT, "second", "target", "release", "second")
LIBRARY = "host_c"
ARCHIVE = os.path.join(ROOT, "crates", LIBRARY, "out", f"lib{LIBRARY}.a")
BUILT = os.path.join(ROOT, "target", "tests")

# The emulator's machine without the instruction that the C library likes to copy by: the emulator does it byte by byte.
MACHINE = ["-cpu", "max,-erms"]

# A batch of cases ends at so many bytes or lines, whichever is first.
BATCH_BYTES = 8_000_000
BATCH_LINES = 20_000


def fail(text):
    print(f"{os.path.basename(sys.argv[0])}: {text}", file=sys.stderr)
    sys.exit(2)


def made(words, folder):
    done = subprocess.run(words, cwd=folder, stdin=subprocess.DEVNULL, stdout=subprocess.PIPE, stderr=subprocess.STDOUT)
    if done.returncode != 0:
        sys.stderr.write(done.stdout.decode(errors="replace"))
        fail(f"`{' '.join(words)}` failed")


# ---- the kit


def kit():
    """The folder of the kit. It stands where `rt` really is."""
    rt = shutil.which("rt")
    if not rt:
        fail("there is no `rt` on the path")
    return os.path.dirname(os.path.dirname(os.path.realpath(rt)))


def tool(*names):
    """A file of the kit's toolchain."""
    return os.path.join(kit(), "toolchain", *names)


def running(program):
    """The words that run a program for x86-64: by the kit's loader, on other machines under an emulator."""
    words = [tool("lib", "ld-linux-x86-64.so.2"), "--library-path", tool("lib"), program]
    if platform.machine() == "x86_64":
        return words
    return [shutil.which("qemu-x86_64") or fail("there is no `qemu-x86_64` on the path"), *MACHINE, *words]


# ---- the table of the commands

Row = collections.namedtuple("Row", "word least most program usage")


def table(text=None):
    """The rows of commands.txt, or of a text like it."""
    if text is None:
        with open(os.path.join(ROOT, "commands.txt"), encoding="utf-8") as file:
            text = file.read()
    rows = [line.split(maxsplit=4) for line in text.splitlines() if not line.startswith(("#", ">"))]
    return [Row(word, int(least), int(most), program, usage) for word, least, most, program, usage in rows]


@functools.cache
def programs():
    """The program of each command."""
    return {row.word: row.program for row in table()}


def program_crates():
    """The programs that have commands."""
    return sorted(set(programs().values()))


def program_of(words):
    """The program that has the command of these words; where they ask for none, the one of `plan`."""
    return programs().get(words[0] if words else "plan", programs()["plan"])


# ---- the proved programs, and the second program


def build_proved(name):
    """A program of crates/ is proved and built as ./olivastrum does it, again only if something changed."""
    kit()
    script = 'here=$PWD me=$1; say() { printf "%s: %s\\n" "$me" "$*" >&2; }; . ./build.sh; build "$2"'
    made(["sh", "-c", script, "sh", os.path.basename(sys.argv[0]), name], ROOT)


def build_programs():
    """Every program that has commands."""
    for name in program_crates():
        build_proved(name)


def proved_command(name):
    return running(os.path.join(ROOT, "crates", name, "out", name))


def calling(words):
    """The words that call the program which has the command of these."""
    return proved_command(program_of(words)) + words


def build_second():
    made(["cargo", "build", "--quiet", "--offline", "--release"], os.path.join(ROOT, "second"))


def second_command(planted=0):
    return [SECOND] + (["--planted", str(planted)] if planted else []) + ["answers"]


# ---- programs in C that are linked with the proved archive


def crate_lines(name):
    """The lines of crates.txt that a crate is made by, by their crates: its own, and those of all that it sees."""
    with open(os.path.join(ROOT, "crates.txt")) as file:
        lines = [line.split("#")[0].strip() for line in file]
    listed = {line.split(":")[0].split()[0]: line for line in lines if ":" in line}
    found, left = {}, [name]
    while left:
        crate = left.pop()
        if crate in listed and crate not in found:
            found[crate] = listed[crate]
            left += listed[crate].split(":")[1].split()
    return found


def sources_of(crates):
    """The files that crates are proved from."""
    for crate in crates:
        for part in ["src", "specs", "proofs"]:
            for folder, _, files in os.walk(os.path.join(ROOT, "crates", crate, part)):
                yield from (os.path.join(folder, file) for file in files)


def sum_of(name):
    """A sum over what a crate is proved from, and by which kit."""
    lines = crate_lines(name)
    total = hashlib.sha256(repr(sorted(lines.items())).encode())
    for path in sorted([os.path.join(kit(), "KIT-ID"), *sources_of(lines)]):
        with open(path, "rb") as file:
            total.update(f"{os.path.relpath(path, ROOT)}\n{hashlib.sha256(file.read()).hexdigest()}\n".encode())
    return total.hexdigest()


def build_archive():
    """`rt lib` builds the static library anew at every call: here only if something changed."""
    mark = os.path.join(BUILT, f"lib{LIBRARY}.sum")
    total = sum_of(LIBRARY)
    if os.path.exists(ARCHIVE) and os.path.exists(mark) and open(mark).read() == total:
        return
    made(["rt", "lib"], os.path.join(ROOT, "crates", LIBRARY))
    os.makedirs(BUILT, exist_ok=True)
    with open(mark, "w") as file:
        file.write(total)


def build_c(name, sources, flags=(), link=()):
    """Builds target/tests/NAME of C sources and the archive by the kit's tools alone; gives the words that run it."""
    build_archive()
    program = os.path.join(BUILT, name)
    compiler = [tool("bin", "clang"), "--target=x86_64-linux-gnu", "-std=c11", "-O2", "-Wall", "-Wextra", "-Werror"]
    compiler += ["-nostdinc", "-fPIE", "-I", "include", "-isystem", "tests/host/c", *flags]
    with tempfile.TemporaryDirectory(dir=BUILT) as work:
        objects = [os.path.join(work, f"{place}.o") for place in range(len(sources))]
        for source, compiled in zip(sources, objects):
            made([*compiler, "-c", source, "-o", compiled], ROOT)
        linked = os.path.join(work, name)
        linker = [tool("bin", "ld.lld"), "-pie", "-m", "elf_x86_64", "-o", linked, *link]
        begin, end = [tool("lib", "Scrt1.o"), tool("lib", "crti.o")], [tool("lib", "crtn.o")]
        library = [tool("lib", "libc.so.6"), tool("lib", "libc_nonshared.a")]
        made([*linker, *begin, *objects, ARCHIVE, *library, *end], ROOT)
        os.replace(linked, program)
    return running(program)


DRIVER = [f"tests/driver/{name}.c" for name in ["driver", "lent", "page", "words"]]


def build_driver():
    """The driver: it reads framed cases and prints what the exported functions answer."""
    return build_c("driver", DRIVER)


def build_commands():
    """What answers the `command` cases: the proved programs, with the sheets, stores and lists in files."""
    for name in sorted({program_of([word]) for word in ["diff", "explain", "tune", "inspect", "page", "keep", "hopper", "hopper-sheet", "refit"]}):
        build_proved(name)
    return [os.path.join(ROOT, "tests", "driver", "commands")]


# ---- cases and answers


def generated(kind, seed, count):
    """Framed cases of the second program, in batches."""
    words = [SECOND, "generate", kind, str(seed), str(count)]
    with subprocess.Popen(words, stdout=subprocess.PIPE) as run:
        try:
            while batch := run.stdout.readlines(BATCH_BYTES):
                for start in range(0, len(batch), BATCH_LINES):
                    yield [line.removesuffix(b"\n") for line in batch[start : start + BATCH_LINES]]
        except GeneratorExit:
            run.kill()
            raise
    if run.returncode != 0:
        fail(f"`{' '.join(words)}` failed")


def all_generated(kind, seed, count):
    """The same in one list, for a few."""
    return [case for batch in generated(kind, seed, count) for case in batch]


def answers(programs, cases):
    """What each of the programs answers to the cases, a line for each; all are at work at the same time."""
    with tempfile.NamedTemporaryFile() as given:
        given.write(b"".join(case + b"\n" for case in cases))
        given.flush()
        runs = [started(words, given.name) for words in programs]
        return [ended(words, out, run, len(cases)) for words, out, run in runs]


def started(words, name):
    out = tempfile.TemporaryFile()
    with open(name, "rb") as given:
        return words, out, subprocess.Popen(words, stdin=given, stdout=out)


def ended(words, out, run, count):
    if run.wait() != 0:
        fail(f"`{' '.join(words)}` ended with status {run.returncode}")
    out.seek(0)
    lines = out.read().split(b"\n")[:-1]
    out.close()
    if len(lines) != count:
        fail(f"`{' '.join(words)}` answered {len(lines)} lines to {count} cases")
    return lines
