"""Types as the prover prints them in its errors: read, and held against each other by numbers."""

import itertools
import random
import re

WORD = re.compile(r"[(){},;]|λ|[^\s(){},;λ]+")
# The name of something in a module of the libraries or of this repository.
NAMED = re.compile(r"(?:Rattle|Prim|mathlib|native|lib|borrow|mir|denote)\.(?:.*\.)?(?P<name>[^.]+)")
# How strongly an operator binds; one that is not here binds as strongly as a relation.
BINDS = {":": -1, "=": -1, "→": 0, "↔": 0.5, "×": 1, "⊎": 1, "∷": 3, "++": 3, "∙": 3, "+": 4, "-": 4, "*": 5, "/": 5, "%": 5}
RELATIONS = {"≡": lambda a, b: a == b, "≢": lambda a, b: a != b, "≤": lambda a, b: a <= b, "<": lambda a, b: a < b}
NUMBERS = {
    "+": lambda a, b: a + b,
    "-": lambda a, b: max(a - b, 0),
    "*": lambda a, b: a * b,
    "/": lambda a, b: a // b if b else 0,
    "%": lambda a, b: a % b if b else a,
    "min": min,
    "max": max,
}


class Reader:
    """A type as a tree: a name, or a tuple of an operator or a head and what it is applied to."""

    def __init__(self, text):
        self.words, self.at = WORD.findall(text), 0

    def word(self):
        return self.words[self.at] if self.at < len(self.words) else None

    def next(self):
        self.at += 1
        return self.words[self.at - 1]

    def infix(self, low=-1):
        """Operators that bind at least as strongly as `low`."""
        left = self.applied()
        while self.is_infix(self.word()) and BINDS.get(self.word(), 2) >= low:
            binds, sign = BINDS.get(self.word(), 2), self.next()
            left = (sign, left, self.infix(binds if sign in "→×⊎∷" else binds + 0.5))
        return left

    @staticmethod
    def is_infix(word):
        return word is not None and (word in BINDS or word in RELATIONS or word in ["≟", "&&"])

    def applied(self):
        """A head and what it is applied to."""
        parts = []
        while self.word() is not None and self.word() not in ") } , ;".split() and not self.is_infix(self.word()):
            word = self.next()
            if word == "λ":
                names = []
                while not names or not names[-1].endswith("."):
                    names.append(self.next())
                parts.append(("λ", " ".join(names), self.infix()))
            elif word == "record" and self.word() == "{":
                self.next()
                parts.append((word, self.inner()))
            elif word == "{":
                self.inner()
            elif word == "(":
                parts.append(self.inner())
            else:
                known = NAMED.fullmatch(word)
                parts.append(known["name"] if known else word)
        return headed(parts)

    def inner(self):
        """What stands in brackets. What is implicit, in other braces than a record's, is left out."""
        parts = [self.infix()]
        while self.next() in [",", ";"]:
            parts.append(self.infix())
        return parts[0] if len(parts) == 1 else (",", *parts)


def headed(parts):
    """An application, with the operators that are printed by their names as operators."""
    if not parts:
        return ("()",)
    head, *rest = parts
    sign = re.fullmatch(r"◌(\S+)◌", head) if isinstance(head, str) else None
    if sign and len(rest) == 2:
        return (sign[1], *rest)
    if head == "Path" and len(rest) == 3:
        return ("≡", *rest[1:])
    if head == "suc" and len(rest) == 1:
        return ("+", rest[0], "1")
    return head if not rest else tuple(parts)


def unnamed(tree, table, depth=0):
    """The tree with what is given, `(x y : T) → ..`, called by how deep it stands."""
    if isinstance(tree, str):
        return table.get(tree, tree)
    if tree[0] == "→" and tree[1][0] == ":":
        names = [tree[1][1]] if isinstance(tree[1][1], str) else tree[1][1]
        inner = {**table, **{name: f"#{depth + k}" for k, name in enumerate(names)}}
        given = unnamed(tree[1][2], table, depth)
        tree = unnamed(tree[2], inner, depth + len(names))
        for _ in names:
            tree = ("→", given, tree)
        return tree
    return tuple(unnamed(part, table, depth) for part in tree)


def read(text):
    """The tree of a printed type; None where it is not understood."""
    reader = Reader(text)
    try:
        tree = reader.infix()
    except IndexError:
        return None
    return unnamed(tree, {}) if reader.word() is None else None


def number(tree, atoms):
    """The number that a tree gives; what is not understood is an atom with a number of its own."""
    if isinstance(tree, str) and tree.isdigit():
        return int(tree)
    if not isinstance(tree, str) and tree[0] in NUMBERS and len(tree) == 3:
        return NUMBERS[tree[0]](number(tree[1], atoms), number(tree[2], atoms))
    return atoms.setdefault(tree, 0)


def relation(tree):
    return not isinstance(tree, str) and tree[0] in RELATIONS and len(tree) == 3


def tried(given, wanted):
    """Two relations between numbers, tried with small ones and with those near the numbers in them: whether the wanted one
    holds, each time that the given one does."""
    atoms = {}
    for side in [*wanted[1:], *given[1:]]:
        number(side, atoms)
    names, values = list(atoms), set(range(5))
    for one in numerals(wanted) | numerals(given):
        values |= {max(one - 1, 0), one, one + 1}
    values = sorted(values)
    if len(values) ** len(names) <= 4000:
        tries = itertools.product(values, repeat=len(names))
    else:
        dice = random.Random(1994)
        tries = ([dice.choice(values) for _ in names] for _ in range(4000))
    for some in tries:
        atoms = dict(zip(names, some))
        if holds(given, atoms):
            yield holds(wanted, atoms)


def numerals(tree):
    """The numbers that stand in a tree."""
    if isinstance(tree, str):
        return {int(tree)} if tree.isdigit() else set()
    return set().union(*(numerals(part) for part in tree))


def holds(tree, atoms):
    return RELATIONS[tree[0]](number(tree[1], atoms), number(tree[2], atoms))


def fails(given, wanted):
    """Are these two relations, at least one an order, and are there numbers at which only the given one holds? Or do
    they claim two such relations under the same premises?"""
    while given and wanted and given[0] == "→" and wanted[0] == "→" and given[1] == wanted[1]:
        given, wanted = given[2], wanted[2]
    if given is None or wanted is None or not (relation(given) and relation(wanted)):
        return False
    return (given[0] in "≤<" or wanted[0] in "≤<") and not all(tried(given, wanted))


def gives(given, wanted):
    """Is what is wanted there already, where something is given? True only where that is plain."""
    if given is None or wanted is None:
        return False
    if given == wanted:
        return True
    if relation(given) and relation(wanted):
        each = list(tried(given, wanted))
        return each != [] and all(each)
    if wanted[0] == "→" and gives(given, wanted[2]):
        return True
    if isinstance(given, str) or isinstance(wanted, str) or given[0] != wanted[0] or len(given) != len(wanted):
        return False
    if given[0] == "→":
        return gives(wanted[1], given[1]) and gives(given[2], wanted[2])
    if given[0] in ["×", "⊎"]:
        return gives(given[1], wanted[1]) and gives(given[2], wanted[2])
    if given[0] == "¬◌":
        return gives(wanted[1], given[1])
    return False


def closed(tree):
    """A value with no unknown in it."""
    if isinstance(tree, str):
        return tree.isdigit() or tree in ["true", "false", "[]", "none", "tt"]
    return tree[0] in ["+", "∷", ",", "pos", "negsuc", "some", "-"] and all(closed(part) for part in tree[1:])


def differ_closed(given, wanted):
    """Do the two differ, and only in values with no unknown in them?"""
    if given is None or wanted is None or given == wanted:
        return False
    if closed(given) and closed(wanted):
        return True
    if isinstance(given, str) or isinstance(wanted, str) or len(given) != len(wanted):
        return False
    return all(a == b or differ_closed(a, b) for a, b in zip(given, wanted))
