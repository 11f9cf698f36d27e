"""The patterns of tools/forms that read contracts and proofs: points 5 and 8. Each yields a file, a place in it and what stands there."""

import collections
import re

import functions
import sources

HEAD = re.compile(r"(?<![.\w])[A-Z]\w+\b(?!\.)")
ANSWER = re.compile(r"^(?:pub )?(\S+) : goal\.\S+", re.MULTILINE)


def grouped(tree, keys_of):
    """The functions by what each has of something."""
    found = collections.defaultdict(list)
    for function in tree.functions:
        for key in sorted(set(keys_of(function))):
            found[key].append(function)
    return sorted(found.items(), key=lambda one: (-len(one[1]), str(one[0])))


def said(key, held):
    return held[0].source, held[0].at, f"{key}: {len(held)} functions: {', '.join(f'{one.crate}::{one.name}' for one in held)}"


def facts(tree):
    """Parts of clauses between ×; which state of a lent value is meant counts as nothing."""
    for fact, held in grouped(tree, parts_of_clauses):
        if len(held) > 2:
            yield said(fact, held)


def parts_of_clauses(function):
    for _, text in function.clauses:
        for part in functions.parts_of(bare(" ".join(text.split())), "×"):
            yield re.sub(r"\.(?:now|old|new)\b", "", bare(part))


def bare(text):
    text = text.strip()
    return text[1:-1].strip() if text.startswith("(") and functions.closing(text, 0) == len(text) else text


def asked(tree, clause="requires"):
    for head, held in grouped(tree, lambda one: [head for kind, text in one.clauses if kind == clause for head in HEAD.findall(text)]):
        if len(held) > 2:
            yield said(head, held)


def promised(tree):
    """The exports for C, which promise what the operation promises, are left out."""
    return ((source, at, what) for source, at, what in asked(tree, "ensures") if any("mus::" not in one for one in what.split(": ")[2].split(", ")))


def name_and_type(parameter):
    return f"{parameter[0].replace('mut ', '')}: {re.sub(r'&.[a-z]+ ', '&', parameter[1])}"


def travelling(tree):
    """The largest such groups: none is a part of another."""
    for crate in sorted({one.crate for one in tree.functions}):
        taken = [(one, frozenset(map(name_and_type, one.parameters))) for one in tree.functions if one.crate == crate]
        groups = {a & b for _, a in taken for _, b in taken if len(a & b) > 2}
        held = {group: [one for one, every in taken if group <= every] for group in groups}
        wide = [group for group in groups if len(held[group]) > 2]
        for group in sorted(wide, key=lambda one: tree.place(held[one][0].source, held[one][0].at)):
            if not any(group < other for other in wide):
                yield said("(" + ", ".join(sorted(group)) + ")", held[group])


def pairs(tree):
    """Pairs of which one is hardly ever taken, in one function in ten, without the other."""
    alone = dict((name, len(held)) for name, held in grouped(tree, lambda one: map(name_and_type, one.parameters)))

    def both(function):
        every = sorted(map(name_and_type, function.parameters))
        return [(a, b) for at, a in enumerate(every) for b in every[at + 1 :]]

    for pair, held in grouped(tree, both):
        if len(held) > 9 and len(held) >= 0.9 * min(alone[one] for one in pair):
            yield said("(" + ", ".join(pair) + ")", held)


def answer_files(tree):
    for path in sorted(tree.root.glob("crates/*/proofs/**/Answers.antt")):
        if sources.is_of_a_function(path):
            yield sources.Source(path), 0, path.parent.name


def answers(tree):
    for source, _, name in answer_files(tree):
        for found in ANSWER.finditer(source.shown):
            yield source, found.start(), f"{name}: {found[1]}"


def repeated(tree):
    """Answers of four words or more whose text is the same."""
    found = collections.defaultdict(list)
    for source, _, function in answer_files(tree):
        for one in source.declarations():
            text = " ".join(source.body[one.at : one.to].split()).partition(" = ")[2]
            if len(text.split()) > 3:
                found[text].append((source, one.at, f"{function}: {one.name}"))
    for text, held in sorted(found.items()):
        if len(held) > 2:
            yield held[0][0], held[0][1], f"{len(held)} times: {text}"


def unnamed(tree):
    """Public laws that no other file of specs/, proofs/ or src/ names, and no page between backquotes but those that say what changed."""
    paths = [path for pattern in ("crates/*/[sp]*/**/*.antt", "crates/*/src/**/*.rt") for path in sorted(tree.root.glob(pattern))]
    words = {path: set(re.findall(rf"[^{sources.ENDS}:]+", sources.Source(path).shown)) for path in paths}
    files = collections.Counter(word for every in words.values() for word in every)
    pages = "\n".join(path.read_text() for path in [tree.root / "README.md", *tree.root.glob("docs/*.md")] if not path.name.startswith("DESIGN"))
    for path in paths:
        if path.relative_to(tree.root / "crates").parts[1] != "proofs" or sources.is_of_a_function(path) or path.name == "Worked.antt":
            continue
        source = sources.Source(path)
        for one in source.declarations():
            if one.public and files[one.name] < 2 and not re.search(rf"[`:]{re.escape(one.name)}`", pages):
                yield source, one.at, one.name
