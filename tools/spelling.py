#!/usr/bin/env python3
"""Brings the repository's own definitions, lemmas and record fields to today's spelling: words in snake case.

    tools/spelling.py FOLDER        once, behind the kit's port.py; FOLDER is the top of the repository

A name is own if a file of crates/*/specs or crates/*/proofs declares it. Each that begins with a small letter and has a
capital or a dash becomes snake case: in the .antt files, in the clauses and imports of the .rt files, between backticks in
comments and documents. A lemma or a field that would get the name of a definition gets `_lem` behind it. Types and modules
keep camel case. What Rattle makes (goals, invariants, steps), the kit's names, functions, exported names, strings, inputs
and outputs stay as they are. What was turned is listed, old and new, in the file tools/spelling.tsv.
"""

import glob
import os
import re
import sys

TOKEN = re.compile(r"[^\s.,;:(){}\[\]\"`]+")
DECLARED = re.compile(r"^( *)(?:(?:abbrev|unfoldable|pub|opaque|private) )*([^\s.,;:(){}\[\]\"`]+) :(?= |$)")
IMPORT = re.compile(r"^(?:pub )?use ([^\s{]+)\.\{([^}]*)\}", re.M)
GHOST = re.compile(r"^ *(?:pub )?ghost use ([^\s{]+)\.\{([^}]*)\};", re.M)
# What Rattle makes of a function: goals, steps, and what an author gives for a loop.
MADE = re.compile(
    r"^(invariant|decreases|loop|returns|overflow|bounds|slice_bounds|offset_bounds|nonzero|prove|invariant_of)(-|$)"
    r"|-(requires|init|preserved|smaller|spec)$"
)


def texts(top, pattern):
    return sorted(p for p in glob.glob(os.path.join(top, pattern), recursive=True) if os.path.isfile(p) and "/out/" not in p)


def read(path):
    with open(path, encoding="utf-8") as f:
        return f.read()


def snake(name):
    name = re.sub(r"(?<=[a-z0-9'])([A-Z])", lambda m: "_" + m.group(1).lower(), name.replace("′", "'"))
    return name.replace("-", "_")


def declared_in(path, text):
    """The names that a file declares, each with whether it is a lemma or a field."""
    found, head = {}, ""
    proof, facts = "/proofs/" in path, path.endswith("/Promised.antt")
    for line in text.splitlines():
        if line and not line.startswith((" ", "-")):
            head = line
        m = DECLARED.match(line)
        if not m:
            continue
        name, inner = m.group(2), bool(m.group(1))
        if path.endswith("/Proof.antt") and (MADE.search(name) or re.search(rf"\b{re.escape(name)} : tie\.", line)):
            continue
        field = inner and " record " in f" {head} "
        found[name] = proof or field or (facts and inner)
    return found


def turned_names(top):
    """Old and new spelling of each own name that changes."""
    own = {os.path.basename(p) for p in glob.glob(os.path.join(top, "crates/*"))}
    lemma, definition, foreign = set(), set(), set()
    for path in texts(top, "crates/*/specs/**/*.antt") + texts(top, "crates/*/proofs/**/*.antt"):
        text = read(path)
        for name, is_lemma in declared_in(path, text).items():
            (lemma if is_lemma else definition).add(name)
        for module, names in IMPORT.findall(text):
            if not any(module.startswith(f"Rattle.{c}.") for c in own):
                foreign |= {n.strip().split(" as ")[0] for n in names.split(",")}
    for path in texts(top, "crates/*/src/**/*.rt"):
        for module, names in GHOST.findall(read(path)):
            if not any(module.startswith(f"Rattle.{c}.") for c in own):
                foreign |= {n.strip().split(" as ")[0] for n in names.split(",")}
    change = lambda n: re.match(r"[a-z]", n) and re.fullmatch(r"[\w'′-]+", n) and n not in foreign
    turned = {n: snake(n) for n in definition if change(n) and snake(n) != n}
    taken = {turned.get(n, n) for n in definition} | foreign
    for n in sorted(lemma - definition, key=lambda n: ("-" in n, n)):
        if change(n):
            new = snake(n) if snake(n) not in taken and snake(n) not in turned.values() else snake(n) + "_lem"
            if new != n:
                turned[n] = new
    return turned, definition, lemma, foreign


def turn_code(code, turned):
    return TOKEN.sub(lambda m: turned.get(m.group(), m.group()), code)


def turn_words(text, turned):
    return re.sub(r"`([^`\n]*)`", lambda m: "`" + turn_code(m.group(1), turned) + "`", text)


def turn_antt(text, turned):
    lines = []
    for line in text.split("\n"):
        at = re.search(r"(^|\s)--( |$)", line)
        cut = at.start() if at else len(line)
        lines.append(turn_code(line[:cut], turned) + turn_words(line[cut:], turned))
    return "\n".join(lines)


def turn_rt(text, turned):
    """Imports, clauses and comments of a source file; code keeps its names."""
    loud = {old: new for old, new in turned.items() if re.search(r"[A-Z-]|′", old)}
    lines, clause = [], 0
    for line in text.split("\n"):
        at = line.find("//")
        quoted = at >= 0 and line[:at].count('"') % 2
        cut = len(line) if at < 0 or quoted else at
        code = line[:cut]
        if re.match(r"\s*(pub )?ghost use ", code):
            code = turn_code(code, turned)
        elif clause or re.match(r"\s*(requires|ensures|ghost|decreases|invariant)\b", code):
            code = turn_code(code, loud)
            clause = max(0, clause + line[:cut].count("{") - line[:cut].count("}"))
        lines.append(code + turn_words(line[cut:], turned))
    return "\n".join(lines)


def main(top):
    turned, definition, lemma, foreign = turned_names(top)
    made = {}
    for old, new in turned.items():
        made.setdefault(new, []).append(old)
    for new, olds in sorted(made.items()):
        others = [n for n in definition | lemma if n == new and n not in turned]
        if len(olds) + len(others) > 1:
            print(f"spelling: fall together as {new}: {', '.join(olds + others)}")
    for path in texts(top, "crates/*/specs/**/*.antt") + texts(top, "crates/*/proofs/**/*.antt") + texts(top, "crates/*/src/**/*.rt"):
        text = read(path)
        tokens = set(TOKEN.findall(text))
        for old in sorted(tokens & set(turned)):
            if turned[old] in tokens and turned[old] not in turned and path.endswith(".antt"):
                print(f"spelling: {os.path.relpath(path, top)} has {turned[old]} beside {old}")
        new = turn_antt(text, turned) if path.endswith(".antt") else turn_rt(text, turned)
        if new != text:
            with open(path, "w", encoding="utf-8") as f:
                f.write(new)
    for pattern in ["*.md", "docs/**/*.md", "crates.txt"]:
        for path in texts(top, pattern):
            text = read(path)
            new = turn_words(text, turned)
            if new != text:
                with open(path, "w", encoding="utf-8") as f:
                    f.write(new)
    with open(os.path.join(top, "tools/spelling.tsv"), "w", encoding="utf-8") as f:
        f.writelines(f"{old}\t{new}\n" for old, new in sorted(turned.items()))
    print(f"spelling: {len(turned)} names turned")


if __name__ == "__main__":
    os.makedirs(os.path.join(sys.argv[1], "tools"), exist_ok=True)
    main(sys.argv[1])
