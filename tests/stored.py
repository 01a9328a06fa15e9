"""What a stored case holds: its parts, each a file in one of some forms (tests/commands/run)."""

import os
import re

from programs import ROOT


def content(path):
    with open(path, "rb") as file:
        return file.read()


def version():
    """The version that the header has."""
    header = content(os.path.join(ROOT, "include", "olivastrum.h"))
    return re.search(rb'#define OLIVASTRUM_VERSION "(\S+)"\n', header).group(1)


def from_hex(text):
    data = b""
    for line in text.decode().split("\n"):
        count, _, digits = line.split("#")[0].rpartition("x")
        data += int(count or 1) * bytes.fromhex(digits)
    return data


def from_times(text):
    data = b""
    for line in text.split(b"\n")[:-1]:
        count, words = line.split(b" ", 1)
        data += int(count) * (words + b"\n")
    return data


# The forms of a part, by the end of its file's name.
FORMS = {
    "": lambda text: text,
    ".hex": from_hex,
    ".times": from_times,
    ".from": lambda text: content(os.path.join(ROOT, text.decode().strip())),
    ".page": lambda text: text.replace(b"VERSION", version()),
}


def stored(folder, name):
    for form, read in FORMS.items():
        path = os.path.join(folder, name + form)
        if os.path.exists(path):
            return read(content(path))
    return b""
