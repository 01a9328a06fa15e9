"""What the tests read of a file of antt, by the layout of `rt fmt`: its declarations, and what each of them states."""

import re

HEAD = re.compile(r"^(?:abbrev |unfoldable )?(?:pub )?(?P<kind>record |data )?(?P<name>[^\s(){}]+)(?= |$)")
PART = re.compile(r"^(?:pub )?(?P<name>\S+) : ")
NAME = re.compile(r"[^\s(){},;:⌜⌝λ]+")
USE = re.compile(r"^(?:pub |ghost )?use (?P<module>[^\s{;]+?)(?:\.\{(?P<names>[^}]*)\})?(?: as (?P<alias>\S+?))?;?$")


class Declaration:
    """A declaration: whether it is a record or a data type, where it stands, its text, and of a record or a data type the
    text of each field or constructor."""

    def __init__(self, name, kind, line, given):
        self.name, self.kind, self.lines, self.given = name, kind, [line, line], given
        self.signature, self.text, self.parts, self.part_of = "", "", {}, {}

    def add(self, number, line, indent, clause):
        """A further line. It belongs to the signature, if no clause has come yet."""
        self.lines[1] = number
        self.text += line + "\n"
        inner = line[indent + 2 :] if self.kind else ""
        part = PART.match(inner) if inner[:1] not in ["", " "] else None
        if part:
            self.parts[part["name"]] = ""
        if self.kind and self.parts:
            self.part_of[number] = list(self.parts)[-1]
            self.parts[self.part_of[number]] += line + "\n"
        elif not clause:
            self.signature += " " + line.strip()

    def premises(self):
        """The texts of what is given, and of what is claimed."""
        *given, claimed = split(self.signature.partition(" : ")[2], "→")
        return self.given + given, claimed

    def gives_a_type(self):
        return self.kind is not None or re.search(r"(^|→ )Type \d+$", self.signature.partition(" : ")[2]) is not None


class Module:
    """A file: what each name that it brings in means, (module, name), the modules that it calls by a name, and its
    declarations."""

    def __init__(self, crate):
        self.crate, self.names, self.modules, self.declared = crate, {}, {}, {}

    def use(self, line):
        """A `use` line."""
        found = USE.match(line)
        module = module_at(self.crate, found["module"])
        if found["names"] is None:
            self.modules[found["alias"] or found["module"].split(".")[-1]] = module
        for name in (found["names"] or "").split(","):
            name, _, alias = name.strip().partition(" as ")
            self.names[alias or name] = (module, name)

    def named(self, key, text):
        """The declarations that a text names, where this file is the module `key`. What stands behind a point is a field,
        or a name of a module that is called by a name."""
        for name in NAME.findall(text):
            first, _, last = name.partition(".")
            if first in self.declared:
                yield (key, first)
            elif first in self.names:
                yield self.names[first]
            elif last and first in self.modules:
                yield (self.modules[first], last.partition(".")[0])

    def at(self, line):
        """The declaration that has this line; None if there is none."""
        return next((one for one in self.declared.values() if one.lines[0] <= line <= one.lines[1]), None)


def module_at(crate, path):
    """The crate and the module of a path in a `use` line."""
    found = re.match(r"Rattle\.(\w+)\.((?:specs|proofs)\..+)$", path)
    return (found[1], found[2]) if found else (crate, path)


def split(text, mark):
    """The parts of a text between the marks that stand in no bracket."""
    parts, depth, start = [], 0, 0
    for at, letter in enumerate(text):
        depth += (letter in "({⌜") - (letter in ")}⌝")
        if depth == 0 and letter == mark:
            parts.append(text[start:at].strip())
            start = at + 1
    return parts + [text[start:].strip()]


def read(crate, text):
    """Reads a file. Declarations stand at the left edge, or in a `module _ .. where` two places further."""
    module, one, nest, unfolded, heads = Module(crate), None, [], "", ""
    for number, line in enumerate(re.sub(r"(?m)(^| )--( .*)?$", "", text).splitlines(), 1):
        if not line.strip():
            continue
        indent = len(line) - len(line.lstrip(" "))
        while nest and not heads and indent < 2 * len(nest):
            nest.pop()
        left = line[2 * len(nest) :]
        if heads or left.startswith("module "):
            heads += " " + line.strip()
            if heads.endswith(" where"):
                nest.append(heads.removesuffix(" where").partition("_ ")[2])
                heads, one = "", None
        elif re.match(r"(pub )?use ", left):
            module.use(left)
        elif left.startswith("unfolding "):
            unfolded = left + "\n"
        elif left[0] in " )}":
            if one:
                one.add(number, line, 2 * len(nest), clause)
        elif not left.startswith("pub mod "):
            head = HEAD.match(left)
            clause = head["name"] in module.declared
            if not clause:
                one = Declaration(head["name"], head["kind"] and head["kind"].strip(), number, list(nest))
                module.declared[head["name"]] = one
            one = module.declared[head["name"]]
            one.text, unfolded = one.text + unfolded, ""
            one.add(number, line, 2 * len(nest), clause)
    return module
