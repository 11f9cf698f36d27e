"""The two trees that tools/beside sets side by side: what each declares, by crate."""

import collections
import re
from typing import NamedTuple

import functions
import sources

TRAIT = re.compile(r"\btrait\s+(\w+)[^{;]*\{")
FIELD = re.compile(r" (?=pub \S+ :)")
END = re.compile(";")
NAMED = re.compile(r"`([^`\n]+)`")
ASIDE = "PORT.md", "FIRST-ERRORS.md", "DESIGN-PASS.md", "DESIGN-CONTRACTS.md"


class Function(NamedTuple):
    name: str  # with the type before it, where it is a method
    public: bool
    sign: str
    clauses: collections.Counter
    file: str

    def said(self):
        return "".join(f" {one}" for one in sorted(self.clauses.elements(), reverse=True))


class Side:
    """A tree. Its theorems are the laws of proofs/ that its pages name; a private law has its file before its name."""

    def __init__(self, root):
        tree = functions.Tree(root)
        self.root, self.enums = root, {}
        self.functions, self.types, self.specs, self.laws, self.cited = (collections.defaultdict(kind) for kind in (list, dict, dict, dict, dict))
        lines = (root / "crates.txt").read_text().splitlines()
        self.order = [line.split(":")[0].split()[0] for line in lines if line[:1] not in ("", "#")]
        self.bodies = [(one.crate, one.name, one.body) for one in tree.functions]
        for crate, source in tree.files:
            self.read_functions(crate, [one for one in tree.functions if one.source is source])
            self.read_types(crate, source, [one for one in tree.types if one.source is source])
        named = cited_names(root)
        for path in sorted(root.glob("crates/*/[sp]*/**/*.antt")):
            self.read_logic(path.relative_to(root / "crates"), sources.Source(path), named)
        self.edits = {str(path.relative_to(root / "crates")): path.read_text() for path in root.glob("crates/*/must-fail/*.edit")}
        self.theorems = {crate: {name: self.laws[crate][name] for name, how in every.items() if self.is_theorem(name, *how)} for crate, every in self.cited.items()}

    def is_theorem(self, name, by_path, alone):
        """A page names it: by its path, or by a name of two words or more that nothing but laws has."""
        functions_there = ({last(one) for one in every} for every in self.functions.values())
        others = (*self.specs.values(), *functions_there, {edit.split("/")[-1][: -len(".edit")] for edit in self.edits})
        return by_path or alone and "_" in name and not any(name in every for every in others)

    def read_functions(self, crate, here):
        for one in here:
            marks = re.search(r"[^;{}\]]*$", one.source.shown[: one.at])[0].split()
            sign = one.source.text[one.at : one.start].split(one.name, 1)[1]
            clause = re.search(r"\b(?:requires|ensures)\b", sign)
            said = collections.Counter(f"{kind} {{ {flat(text)} }}" for kind, text in one.clauses)
            name, sign = f"{one.of}::{one.name}" if one.of else one.name, flat(sign[: clause.start()] if clause else sign)
            self.functions[crate].append(Function(name, "pub" in marks, sign, said, one.source.path.name))

    def read_types(self, crate, source, types):
        def whole(at, opened):
            return flat(re.sub(r"//[^\n]*", "", source.text[at : functions.closing(source.shown, opened)]))

        for found in TRAIT.finditer(source.shown):
            self.types[crate][found[1]] = whole(found.start(), found.end() - 1)
        for found in re.finditer(r"\bconst (\w+):", source.shown):
            self.types[crate][found[1]] = flat(source.text[found.start() : functions.until(source.shown, found.end(), END)])
        for one in types:
            self.types[crate][one.name] = whole(one.at, re.compile(r"[^{(]*").match(source.shown, one.at).end())
            if one.kind == "enum":
                self.enums[crate, one.name] = one.parts

    def read_logic(self, place, source, named):
        crate, part = place.parts[:2]
        for one in source.declarations() if not sources.is_of_a_function(source.path) else ():
            text = around(source.body, one.at) + flat(source.shown[one.at : one.to])
            if part == "specs":
                self.specs[crate][one.name] = text
            else:
                key = one.name if one.public and one.name not in self.laws[crate] else f"{place.name}:{one.name}"
                self.laws[crate][key] = statement(text, one.name)
                self.cited[crate][key] = f"{place}:{one.name}" in named, key in named


def around(text, at):
    """What the `module _` blocks that a declaration stands in assume for it."""
    depth, found = len(text[at:]) - len(text[at:].lstrip(" ")), ""
    for opened in reversed([*re.finditer(r"^( *)module\b", text[:at], re.MULTILINE)]):
        head = re.compile(r".*?\bwhere\b", re.DOTALL).match(text, opened.end())
        if head and len(opened[1]) < depth and not re.search(rf"^ {{0,{len(opened[1])}}}\S", text[head.end() : at], re.MULTILINE):
            depth = len(opened[1])
            found = "in " + flat(head[0]) + " " + found
    return found


def flat(text):
    """One line; no last comma, no space inside of brackets."""
    return re.sub(r"\s+\)", ")", re.sub(r",\s*\)", ")", re.sub(r"\(\s+", "(", " ".join(text.split()))))


def statement(text, name):
    """A law without its proof: what stands before the equation of its name."""
    return re.split(rf" (?:unfolding \S.*? )?{re.escape(name)}(?: [^:]*?)? = ", text, maxsplit=1)[0]


def cited_names(root):
    """What README and docs/ have between backquotes: paths with a name, and names alone."""
    pages = [root / "README.md", *(path for path in root.glob("docs/*.md") if path.name not in ASIDE)]
    return {name for path in pages for name in NAMED.findall(path.read_text())}


def paired(old, new, renamed):
    """The functions of a crate then and now: those found again, those that are gone, and those that are new."""
    gone, left, pair = list(old), list(new), []
    ways = (
        lambda a, b: (a.file, a.name) == (b.file, b.name),
        lambda a, b: a.name == b.name,
        lambda a, b: renamed.get(a.name) == b.name,
        lambda a, b: last(a) == last(b),
    )
    for is_it in ways:
        for one in list(gone):
            other = next((other for other in left if is_it(one, other)), None)
            if other:
                gone.remove(one)
                left.remove(other)
                pair.append((one, other))
    return pair, gone, left


def callers(side, crate, name):
    """The functions that call one of a crate, as crate::name; of a method those that call it by a value or by its type."""
    kind, _, short = name.rpartition("::")
    here = re.compile(rf"(?:\.|\b{kind}::){short}\(" if kind else rf"(?:(?<![.\w:])|\bcrate::(?:\w+::)*){short}\(")
    there = here if kind else re.compile(rf"\b{crate}::(?:\w+::)*{short}\(")
    return sorted({f"{other}::{caller}" for other, caller, body in side.bodies if (here if other == crate else there).search(body)})


def makers(side, kind):
    """The functions that write a value of a type out."""
    made = re.compile(rf"\b{kind} \{{")
    return sorted({f"{crate}::{maker}" for crate, maker, body in side.bodies if made.search(body)})


def last(function):
    return function.name.split("::")[-1]


def as_method(old, new):
    """The old function as it is where the parameter of the new one's type is its `self`."""
    kind, end = new.name.partition("::")[0], functions.closing(old.sign, old.sign.index("(")) - 1
    found = re.search(rf"(?:mut )?\b(\w+): (&(?:'\w+ )?(?:mut )?)?{kind}\b(?:<[^<>]*>)?", old.sign)
    if "::" in old.name or "::" not in new.name or not found:
        return old
    others = [part for part in functions.parts_of(old.sign[old.sign.index("(") + 1 : end]) if part != found[0]]
    turned = {re.sub(rf"(?<![.\w]){found[1]}\b", "self", clause): count for clause, count in old.clauses.items()}
    return old._replace(sign=f"({', '.join([(found[2] or '') + 'self', *others])}{old.sign[end:]}", clauses=collections.Counter(turned))


def parts_that_differ(then, now):
    """Of two records the fields that differ, or the whole texts."""
    if then.count(" pub ") < 2 or now.count(" pub ") < 2:
        return [("", then, now)]
    a, b = FIELD.split(then), FIELD.split(now)
    held, others = ({re.match(r"(?:pub )?(\S+)", one)[1]: one for one in every[1:]} for every in (a, b))
    changed = [(f", `{name}`", held.get(name), others.get(name)) for name in {**held, **others} if held.get(name) != others.get(name)]
    return ([("", a[0], b[0])] if a[0] != b[0] else []) + changed
