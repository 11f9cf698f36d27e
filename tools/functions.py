"""How the scripts that count forms read the code: the functions, types, matches and loops of the .rt files of a tree, each with its place."""

import re
from typing import NamedTuple

import sources

FUNCTION = re.compile(r"\bfn\s+(\w+)")
TYPE = re.compile(r"\b(enum|struct)\s+(\w+)[^;{(]*([{(])")
IMPL = re.compile(r"\bimpl(?:<[^<>]*>)?\s+(?:[\w:]+(?:<[^<>{]*>)?\s+for\s+)?([\w:]+)[^{;]*\{")
CLAUSE = re.compile(r"\b(ensures|requires)\b[^{};]*\{")
HEAD = re.compile(r"\b(?:ensures|requires|where)\b|[{;]")
BODY = re.compile(r"[{;]")
WHILE = re.compile(r"\bwhile\b")
MATCH = re.compile(r"\bmatch\b")
TOKEN = re.compile(r"'?[A-Za-z_]\w*|\d\w*|::|=>|->|[-+*/%&|^<>=!]=|&&|\|\||\.\.|\S")
OPEN, CLOSED = "([{", ")]}"


class Function(NamedTuple):
    crate: str
    source: object
    at: int
    name: str
    parameters: list  # name and type
    result: str
    clauses: list  # requires or ensures, and its text
    start: int  # of the body's brace
    end: int
    of: str  # the type whose method it is, or nothing

    @property
    def body(self):
        return self.source.shown[self.start : self.end]


class Type(NamedTuple):
    crate: str
    source: object
    at: int
    kind: str
    name: str
    parts: list  # the fields, or the cases


def closing(text, at):
    """The place after the bracket that closes the one at `at`."""
    depth = 0
    for place in range(at, len(text)):
        depth += (text[place] in OPEN) - (text[place] in CLOSED)
        if not depth:
            return place + 1
    return len(text)


def parts_of(text, mark=","):
    """What the mark parts, outside of all brackets."""
    parts, depth, start = [], 0, 0
    for at, letter in enumerate(text):
        arrow = letter == ">" and text[at - 1] in "-="
        depth += (letter in "([{<") - (letter in ")]}>" and not arrow)
        if letter == mark and not depth:
            parts.append(text[start:at])
            start = at + 1
    return [part.strip() for part in [*parts, text[start:]] if part.strip()]


def until(text, at, stop):
    """The place of the next thing that `stop` matches, brackets passed over."""
    while at < len(text) and not stop.match(text, at):
        at = closing(text, at) if text[at] in "([" else at + 1
    return at


def after_generics(text, at):
    """The place of the bracket that opens the parameters."""
    depth = 0
    while text[at] != "(" or depth:
        depth += (text[at] == "<") - (text[at] == ">" and text[at - 1] != "-")
        at += 1
    return at


def function_at(crate, source, found, blocks):
    """The function that `fn` opens; None where it has no body."""
    text = source.shown
    opened = after_generics(text, found.end())
    closed = at = closing(text, opened)
    result = text[closed : until(text, closed, HEAD)].replace("->", "").strip()
    clauses = []
    while clause := CLAUSE.match(text, until(text, at, HEAD)):
        at = closing(text, clause.end() - 1)
        clauses.append((clause[1], text[clause.end() : at - 1]))
    body = until(text, at, BODY)
    if text[body : body + 1] != "{":
        return None
    parameters = [tuple(map(str.strip, one.partition(":")[::2])) for one in parts_of(text[opened + 1 : closed - 1])]
    return Function(crate, source, found.start(), found[1], parameters, result, clauses, body, closing(text, body), held_by(found.start(), blocks))


def held_by(at, blocks):
    """The type of the innermost block that holds a place."""
    return next((kind for start, end, kind in reversed(blocks) if start < at < end), "")


class Tree:
    """The files of crates/*/src of a tree, with their functions and types."""

    def __init__(self, root):
        self.root, self.functions, self.types, self.files = root, [], [], []
        for path in sorted(root.glob("crates/*/src/**/*.rt")):
            self.read(path.relative_to(root / "crates").parts[0], sources.Source(path))

    def read(self, crate, source):
        text = source.shown
        self.files.append((crate, source))
        blocks = [(found.start(), closing(text, found.end() - 1), found[1]) for found in IMPL.finditer(text)]
        self.functions += filter(None, (function_at(crate, source, found, blocks) for found in FUNCTION.finditer(text)))
        for found in TYPE.finditer(text):
            end = closing(text, found.end() - 1)
            self.types.append(Type(crate, source, found.start(), found[1], found[2], parts_of(text[found.end() : end - 1])))

    def place(self, source, at):
        return f"{source.path.relative_to(self.root / 'crates')}:{source.line_at(at)}"


def loops_of(function):
    """Each `while` of a function: its place, its condition and its body."""
    for found in WHILE.finditer(function.body):
        opened = function.body.index("{", found.end())
        yield function.start + found.start(), function.body[found.end() : opened], function.body[opened : closing(function.body, opened)]


def arms_of(text, opened):
    """The arms of the match whose brace is at `opened`: pattern and what follows the arrow."""
    inner, at, arms = text[opened + 1 : closing(text, opened) - 1], 0, []
    while arrow := re.compile(r"\s*([^=]*(?:=(?!>)[^=]*)*)=>\s*").match(inner, at):
        end = arrow.end()
        if inner[end : end + 1] == "{":
            at = closing(inner, end)
            value, at = inner[end:at], at + (inner[at : at + 1] == ",")
        else:
            while end < len(inner) and inner[end] != ",":
                end = closing(inner, end) if inner[end] in OPEN else end + 1
            value, at = inner[arrow.end() : end], end + 1
        arms.append((arrow[1].strip(), value.strip()))
    return arms


def matches_of(function):
    """Each match of a function: its place, its subject and its arms."""
    for found in MATCH.finditer(function.body):
        at = found.end()
        while function.body[at] != "{":
            at = closing(function.body, at) if function.body[at] in OPEN else at + 1
        yield function.start + found.start(), function.body[found.end() : at].strip(), arms_of(function.body, at)


def tokens_of(text):
    return TOKEN.findall(text)
