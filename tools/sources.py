"""How the other scripts read the sources: antt and Rattle files without their comments and texts, their names and their imports.

What is left out of a file is blanked and not cut, so that a place in what is left is a place in the file.
"""

import pathlib
import re
from typing import NamedTuple

ROOT = pathlib.Path(__file__).resolve().parent.parent

# A name of antt is any run of other characters than these; what stands between « and » is one name.
ENDS = r"\s(){}.;,@\"«»"
ANTT_NAME = re.compile(rf"«[^»]*»|[^{ENDS}]+")
ANTT_BLANK = re.compile(rf'"(?:\\.|[^"\\])*"|\{{-.*?-\}}|(?<![^{ENDS}])--[^\n]*', re.DOTALL)
RUST_NAME = re.compile(r"[^\W\d]\w*")
RUST_BLANK = re.compile(r"\"(?:\\.|[^\"\\])*\"|'(?:\\.|[^'\\])'|//[^\n]*|/\*.*?\*/", re.DOTALL)
CLAUSE = re.compile(r"\b(?:ensures|requires)\b[^{};]*\{|\bghost\s+\w+\s*[:=]\s*\{|#!?\[tactic\b")
FIELD = re.compile(rf"([{{;]\s*)(?:«[^»]*»|[^{ENDS}]+)\s*=(?![=>])")

# A line of imports: its marks, its path, and the names in braces or the name after `as`.
USE = re.compile(
    r"^[ \t]*(?P<marks>(?:(?:unfoldable|pub|ghost)[ \t]+)*)use[ \t]+(?P<path>[^\s{};]+?)"
    r"(?:(?:\.|::)\{(?P<names>[^}]*)\}|[ \t]+as[ \t]+(?P<other>[^\s;]+))?;?[ \t]*(?:\n|$)",
    re.MULTILINE,
)

# The first line of a declaration: its marks and its name; then its levels and its type, or the parameters of a record.
SIGNATURE = re.compile(
    rf"\s*(?P<marks>(?:(?:abbrev|unfoldable|pub|record|data)\s+)*)(?P<name>«[^»]*»|[^{ENDS}]+)\s*"
    r"(?:\{[^}:]*\}\s*)?(?::|(?<=\s)(?P<open>[({]))"
)


# What the prover reads of a function's proof stands in its folder in proofs/: the invariants and measures of its loops, and the answers to its goals.
OF_A_FUNCTION = "Invariants.antt", "Answers.antt", "Proof.antt"


class Import(NamedTuple):
    path: str  # the module that the name is of, or the module itself
    name: str  # the name as it is there
    here: str  # the name as it is here
    ghost: bool  # for contracts alone
    handed_on: bool  # `pub use`
    at: int  # where it stands in the file


class Declared(NamedTuple):
    name: str
    public: bool
    at: int  # from the line of its signature
    to: int  # to the next declaration


class Source:
    """A file: its text, its text with comments and quoted text blanked, and its lines of imports."""

    def __init__(self, path):
        self.path = path
        self.text = path.read_text()
        self.is_antt = path.suffix == ".antt"
        self.shown = blanked(self.text, ANTT_BLANK if self.is_antt else RUST_BLANK)
        self.lines_of_imports = list(USE.finditer(self.shown))
        self.body = blanked(self.shown, USE)

    def with_more(self, text):
        """The body with other text read as if it stood below it."""
        self.body += "\n" + blanked(text, ANTT_BLANK if self.is_antt else RUST_BLANK)
        return self

    def line_at(self, at):
        return self.text.count("\n", 0, at) + 1

    def imports(self):
        return [one for line in self.lines_of_imports for one in imports_of(line)]

    def declarations(self):
        """What an antt file declares, inside of `module _` blocks too: not the fields of a record nor the cases of a type."""
        found, blocks, at = [], [], 0
        for line in self.body.splitlines(keepends=True):
            words, indent = line.split(), len(line) - len(line.lstrip())
            if words:
                blocks = [one for one in blocks if one < indent]
                if words[0] == "module":
                    blocks.append(indent)
                    found.append((None, False, at))
                elif indent == (blocks[-1] + 2 if blocks else 0) and (opened := signature_of(line)):
                    found.append((opened["name"], "pub" in opened["marks"].split(), at))
            at += len(line)
        ends = [at for _, _, at in found[1:]] + [len(self.body)]
        return [Declared(name, public, at, end) for (name, public, at), end in zip(found, ends) if name]

    def names(self, ghost=False):
        """The names that the file uses below its imports; of an .rt file those of its code, or those of its contracts."""
        if self.is_antt:
            return names_in(self.body, ANTT_NAME)
        if ghost:
            return names_in(" ".join(self.body[at:end] for at, end in contracts_of(self.body)), ANTT_NAME)
        return names_in(code_of(self.body), RUST_NAME)


def contracts_of(text):
    """Where the contracts of an .rt file stand: from the bracket that opens a clause or a ghost field, or names the laws of a tactic, to its end."""
    for found in CLAUSE.finditer(text):
        start = end = text.index("[" if text[found.start()] == "#" else "{", found.start())
        depth = 0
        for end in range(start, len(text)):
            depth += {"{": 1, "[": 1, "}": -1, "]": -1}.get(text[end], 0)
            if not depth:
                break
        yield start, end + 1


def code_of(text):
    """An .rt text without its contracts: a definition may have the name of a function."""
    code, at = "", 0
    for start, end in contracts_of(text):
        code, at = code + text[at:start], end
    return code + text[at:]


def is_of_a_function(path):
    """The file answers the prover about one function (`proofs/F/Answers.antt`), and is none of laws (`proofs/Answers.antt`)."""
    return path.name in OF_A_FUNCTION and path.parent.name != "proofs"


def signature_of(line):
    """The signature that a line opens; only that of a record or a type has parameters before its colon."""
    found = SIGNATURE.match(line)
    return found if found and (not found["open"] or {"record", "data"} & set(found["marks"].split())) else None


def blanked(text, pattern):
    return pattern.sub(lambda found: re.sub(r"[^\n]", " ", found.group()), text)


def names_in(text, pattern):
    """The names that stand for themselves: not what is behind a dot or `::`, and not a field that is given a value in braces."""
    fields = {found.end(1) for found in FIELD.finditer(text)}
    every = (found for found in pattern.finditer(text) if found.start() not in fields)
    return {found.group() for found in every if not is_member(text[max(0, found.start() - 2) : found.start()])}


def is_used(name, used):
    """The name is among those used; of an operator (`◌+◌`) every part is, with or without the places of its arguments."""
    parts = [part for part in name.split("◌") if part] if "◌" in name else []
    return name in used or bool(parts) and all({part, f"◌{part}", f"{part}◌"} & used for part in parts)


def is_member(before):
    return before == "::" or (before[-1:] == "." and before != "..")


def imports_of(line):
    """What one line of imports brings in."""
    path, marks = line["path"], line["marks"].split()
    kind = "ghost" in marks, "pub" in marks
    if line["names"] is not None:
        items = re.finditer(r"[^,\s][^,]*", line["names"])
        return [Import(path, *renamed(one.group()), *kind, line.start("names") + one.start()) for one in items]
    module, _, name = path.replace("::", ".").rpartition(".")
    return [Import(module, name, line["other"] or name, *kind, line.start("path"))] if name != "*" else []


def renamed(item):
    """`a` is a itself, `N.d` is d, `b as c` is b under the name c."""
    name, _, other = item.partition(" as ")
    name = name.strip()
    return name, other.strip() or name.rsplit(".", 1)[-1]
