"""Twins: functions and types of a tree that are one text but for names, numbers and types. A group has the place of its first."""

import collections
import difflib
import re

import functions

KEPT = set("fn let mut if else match while for in return loop break true false as ref move".split())
LEAST = 24  # tokens of a body: in a shorter one there is too little to be a twin's
ALIKE, WORDS = 0.9, 0.8  # so much of the tokens is the same in the same order, without their names and with them


def skeleton(words):
    """The tokens with each name as one sign and each number as another."""
    return tuple("0" if one[0].isdigit() else one if one in KEPT or not (one[0].isalpha() or one[0] in "_'") else "_" for one in words)


def bodies(tree):
    """Each function with its tokens, without and with its names; a path counts as its last name."""
    for one in tree.functions:
        words = functions.tokens_of(re.sub(r"\b\w+::|::<[^<>]*>", "", one.body))
        if len(words) >= LEAST:
            yield one, skeleton(words), tuple(words)


def share(a, b, least):
    """How much of two lists is the same in the same order, or 0 where it can't be so much."""
    if 2 * sum((collections.Counter(a) & collections.Counter(b)).values()) < least * (len(a) + len(b)):
        return 0
    return difflib.SequenceMatcher(None, a, b, False).ratio()


def joined(tree):
    """Pairs that are alike, and whether but for names they are one text."""
    every = list(bodies(tree))
    for at, (one, bones, words) in enumerate(every):
        for other, others, more in every[at + 1 :]:
            near = len(bones) + len(others) >= ALIKE * 2 * max(len(bones), len(others)) - 1
            if near and share(words, more, WORDS) >= WORDS and share(bones, others, ALIKE) >= ALIKE:
                yield one, other, bones == others


def groups(pairs):
    """What pairs join, directly or by others."""
    of = {}
    for a, b in pairs:
        both = of.get(id(a), [a]) + ([] if of.get(id(a)) is of.get(id(b), 0) else of.get(id(b), [b]))
        for one in both:
            of[id(one)] = both
    return list({id(held): held for held in of.values()}.values())


def shown(tree, found):
    for held in sorted(found, key=lambda every: tree.place(every[0].source, every[0].at)):
        yield held[0].source, held[0].at, f"{len(held)}: " + ", ".join(f"{tree.place(one.source, one.at)} {one.name}" for one in held)


def functions_alike(tree, same):
    """The groups of one text but for names, or those in which at least two texts are nearly one."""
    every = list(joined(tree))
    unlike = {id(one) for a, b, one_text in every if not one_text for one in (a, b)}
    found = groups((a, b) for a, b, _ in every)
    return shown(tree, (held for held in found if same != any(id(one) in unlike for one in held)))


def same_functions(tree):
    return functions_alike(tree, True)


def like_functions(tree):
    return functions_alike(tree, False)


def same_types(tree):
    """Structs of as many fields, of the same types and with the same names but for one."""
    every = [(one, [part.replace("pub ", "").partition(": ") for part in one.parts]) for one in tree.types if one.kind == "struct" and len(one.parts) > 2]
    pairs = [(a, b) for at, (a, of_a) in enumerate(every) for b, of_b in every[at + 1 :] if len(of_a) == len(of_b) and one_name_apart(of_a, of_b)]
    return shown(tree, groups(pairs))


def one_name_apart(a, b):
    return [kind for *_, kind in a] == [kind for *_, kind in b] and sum(one[0] != other[0] for one, other in zip(a, b)) < 2
