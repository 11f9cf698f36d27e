"""The patterns of tools/forms that read code: points 1, 3, 4, 6 and 7. Each yields a file, a place in it and what stands there."""

import collections
import re

import functions

NAME = r"[A-Za-z_]\w*"
PATH = rf"{NAME}(?:::{NAME})*"
PLACE = rf"{NAME}(?:\.{NAME}|\.\d)*"
NUMBER = re.compile(r"-?\d\w*$")
WHOLE = re.compile(r"(?:u8|u16|u32|u64|usize)$")
REFUSING = re.compile(r"(?:\w*::)?(?:Refused|Err|No\w+|Not|Faulty|Stop|Unread)\((\w+)\)$")
VALUE = re.compile(rf"-?\d\w*|&?{PATH}|(?:{NAME}::)*[A-Z]\w*\(\w+\)|b?\" *\"")
CALL = re.compile(rf"\{{?\s*(?:return\s+)?({PATH}(?:\.{NAME})*)\s*\((.*)\)\s*\??;?\s*\}}?$", re.DOTALL)
KIND = re.compile(r"(?:level|team|operation|kind|mark|tolerance|verdict|percent)$")
COUNT = re.compile(r"(?:len|length|count|used|many|end|to|m|strata)$")
BRANCHES = re.compile(r"\bif ([^{};]*)\{([^{}]*)\}\s*(?:else\s*\{([^{}]*)\}|([^{};]*)\}$)")


def two_cases(tree):
    for one in tree.types:
        if one.kind == "enum" and len(one.parts) == 2 and any("(" in part or "{" in part for part in one.parts):
            yield one.source, one.at, f"{one.name}: {' | '.join(one.parts)}"


def handed_on(tree):
    """An arm that takes the refusal out and does nothing but hand it on, in a case of the same answer or of another, and at most with its line."""
    for function, at, _, pattern, value in arms(tree):
        refusing = REFUSING.match(pattern)
        given = refusing and rf"(?:(?:[a-z]\w*, )?{refusing[1]}|{PATH} \{{[^{{}}]*\b{refusing[1]}\b[^{{}}]*\}})"
        if refusing and re.fullmatch(rf"\{{?\s*(?:return\s+)?{PATH}\({given}\);?\s*\}}?", value):
            yield function.source, at, f"{function.name}: {pattern} => {value}"


def arms(tree):
    for function in tree.functions:
        for at, subject, every in functions.matches_of(function):
            for pattern, value in every:
                yield function, at, subject, pattern, value


def answers_beside(tree):
    for one in tree.types:
        if one.kind == "struct" and len(one.parts) > 1 and any(re.match(r"(?:pub )?answer: ", part) for part in one.parts):
            yield one.source, one.at, f"{one.name}: {', '.join(one.parts)}"


def flags(tree):
    for one in tree.types:
        held = [part for part in one.parts if re.search(r":\s*bool$|[(,]\s*bool\b", part)]
        if held and (len(one.parts) > 1):
            yield one.source, one.at, f"{one.name}: {', '.join(held)}"


def numbers(tree):
    for function in tree.functions:
        for at, subject, every in functions.matches_of(function):
            of = sum(bool(NUMBER.match(pattern)) for pattern, _ in every)
            into = sum(bool(NUMBER.match(value)) for _, value in every)
            if of > 1 or into > 1:
                yield function.source, at, f"{function.name}: match {subject}: {len(every)} arms, {of} of numbers, {into} into numbers"


def compared(tree):
    for function in tree.functions:
        every = collections.Counter(re.findall(rf"({PLACE}) [!=]= (?:0x)?[0-9A-F]+\b", function.body))
        for name, count in every.items():
            if count > 1:
                yield function.source, function.at, f"{function.name}: {name}, {count} numbers"


def kinds_given(tree):
    for function in tree.functions:
        held = [name for name, kind in function.parameters if WHOLE.match(kind) and KIND.match(name)]
        if held:
            yield function.source, function.at, f"{function.name}({', '.join(held)})"


def flags_given(tree):
    for function in tree.functions:
        held = [name for name, kind in function.parameters if kind == "bool"]
        if held:
            yield function.source, function.at, f"{function.name}({', '.join(held)})"


def noughts(tree):
    for _, source in tree.files:
        for found in re.finditer(r"//.*?\b(?:0|1) (?:where|while|on|past|if)\b.*", source.text):
            yield source, found.start(), found[0].strip()


def loops(tree):
    for function in tree.functions:
        for at, condition, body in functions.loops_of(function):
            yield function, at, " ".join(condition.split()), body


def counted(tree):
    for function, at, condition, body in loops(tree):
        if any(steps_by_one(name, body) for name in re.findall(PLACE, condition)):
            yield function.source, at, f"{function.name}: while {condition}"


def other_loops(tree):
    for function, at, condition, body in loops(tree):
        if not any(steps_by_one(name, body) for name in re.findall(PLACE, condition)):
            yield function.source, at, f"{function.name}: while {condition}"


def steps_by_one(name, body):
    """The body steps the value by 1, or sets it to a name that was made so."""
    here = rf"(?<![\w.]){re.escape(name)}"
    made = "|".join(re.findall(rf"let ({NAME}) = {re.escape(name)} [-+] 1;", body))
    return re.search(rf"{here} (?:[-+]= 1;|= {re.escape(name)} [-+] 1;)", body) or made and re.search(rf"{here} = (?:{made});", body)


def fors(tree):
    for function in tree.functions:
        for found in re.finditer(r"\bfor ([^{};]+?) in ([^{;]+?)\s*\{", function.body):
            opened = found.end() - 1
            yield function, function.start + found.start(), found[1], found[2], function.body[opened : functions.closing(function.body, opened)]


def counted_beside(tree):
    for function, at, _, over, body in fors(tree):
        stepped = [name for name in re.findall(rf"({NAME}) \+= 1;", body) if re.search(rf"\[{name}\]", body)]
        if stepped:
            yield function.source, at, f"{function.name}: for .. in {over}, {', '.join(stepped)} beside it"


def over_places(tree):
    for function, at, name, over, body in fors(tree):
        if ".." in over and re.search(rf"\[{re.escape(name)}\]", body):
            yield function.source, at, f"{function.name}: for {name} in {over}"


def endless(tree):
    for function in tree.functions:
        for found in re.finditer(r"\bloop\b\s*\{", function.body):
            yield function.source, function.start + found.start(), f"{function.name}: loop"


def only_match(tree):
    for function in tree.functions:
        inner, every = function.body[1:-1].strip(), list(functions.matches_of(function))
        if inner.startswith("match ") and inner.endswith("}") and every and len(every[0][2]) > 1:
            if all(VALUE.fullmatch(value) for _, value in every[0][2]):
                yield function.source, function.at, f"{function.name}: {len(every[0][2])} arms"


def only_copies(tree):
    """The last value is a struct of which two or more fields are the fields of the same name of another; a From is left out."""
    for function in (one for one in tree.functions if one.name != "from"):
        found = re.search(rf"({PATH}) \{{([^{{}}]*)\}}\s*\}}$", function.body)
        copied = re.findall(rf"({NAME}): (?:{NAME}\.)+\1\b(?!\()", found[2]) if found else []
        if len(copied) > 1:
            yield function.source, function.at, f"{function.name}: {found[1]}: {', '.join(copied)}"


def conversions(tree):
    for function in tree.functions:
        kinds = [kind.lstrip("&") for _, kind in function.parameters]
        named = re.match(r"(?:of|as|to|from)_|.*_(?:of|from)$", function.name)
        if named and not function.of and len(kinds) == 1 and re.match(r"\[?[A-Z(]|\w+::[A-Z]", kinds[0]) and re.match(r"\[?(?:\w+::)*[A-Z]|[ui]\d|usize", function.result):
            yield function.source, function.at, f"{function.name}({kinds[0]}) -> {function.result}"


def from_number(tree):
    for function in tree.functions:
        if not function.of and len(function.parameters) == 1 and WHOLE.match(function.parameters[0][1]) and re.match(r"(?:\w+::)*[A-Z]", function.result):
            name = function.parameters[0][0]
            if len(re.findall(rf"\b{name} == ", function.body)) > 1 or re.search(rf"match {name} ", function.body):
                yield function.source, function.at, f"{function.name}({name}) -> {function.result}"


def casts(tree):
    for function in tree.functions:
        if re.fullmatch(r"\{\s*\w+ as \w+\s*\}", function.body):
            yield function.source, function.at, function.name


def printed(tree):
    for function in tree.functions:
        if re.search(r"% 10\b|/ 10\b", function.body):
            yield function.source, function.at, function.name


def by_element(tree):
    for function in tree.functions:
        for found in re.finditer(rf"{NAME}\[[^][]*\] [!=]= {NAME}\[|\w+\.({NAME}) [!=]= \w+\.\1\b", function.body):
            yield function.source, function.start + found.start(), f"{function.name}: {found[0]}"


def ordered(tree):
    for function in tree.functions:
        less = {frozenset(pair) for pair in re.findall(rf"({PLACE}) [<>]=? ({PLACE})\b(?!\()", function.body)}
        same = {frozenset(pair) for pair in re.findall(rf"({PLACE}) [!=]= ({PLACE})\b(?!\()", function.body)}
        for pair in less & same:
            yield function.source, function.at, f"{function.name}: {', '.join(sorted(pair))}"


def lengths(tree):
    for function in tree.functions:
        buffers = [name for name, kind in function.parameters if "[" in kind]
        counts = [name for name, kind in function.parameters if kind in ("usize", "u64") and COUNT.match(name)]
        if buffers and counts:
            yield function.source, function.at, f"{function.name}({', '.join(buffers)}; {', '.join(counts)})"
    for one in tree.types:
        counts = [part for part in one.parts if (held := re.fullmatch(r"(?:pub )?(\w+): (?:usize|u64)", part)) and COUNT.match(held[1])]
        if one.kind == "struct" and counts and any("[" in part for part in one.parts):
            yield one.source, one.at, f"struct {one.name}: {', '.join(one.parts)}"


def pens(tree):
    for function in tree.functions:
        kinds = [kind for _, kind in function.parameters]
        if "&mut [u8]" in kinds and ("Pen" in kinds or function.result == "Pen"):
            yield function.source, function.at, function.name


def parallel(tree):
    for function in tree.functions:
        at = collections.defaultdict(set)
        for name, index in re.findall(rf"\b({NAME})\[({PLACE})\]", function.body):
            at[index].add(name)
        for index, names in at.items():
            if len(names) > 1:
                yield function.source, function.at, f"{function.name}: {', '.join(sorted(names))} at {index}"


def searches(tree):
    for function, at, condition, body in loops(tree):
        if re.search(r"\bif\b[^{]*\{\s*(?:return|break)\b|/ 2\b|>> 1\b", body):
            yield function.source, at, f"{function.name}: while {condition}"


def arenas(tree):
    for one in tree.types:
        held = [part for part in one.parts if re.search(r"\b(?:next|left|right|parent|child)\w*: (?:usize|u32)$", part)]
        if one.kind == "struct" and len(held) > 1:
            yield one.source, one.at, f"{one.name}: {', '.join(held)}"


def switches(tree):
    """The branches of an if, or of a match whose patterns take nothing out, each call another function with the same arguments but for one."""
    for function in tree.functions:
        for at, subject, every in functions.matches_of(function):
            if names := same_arguments(value for pattern, value in every if not pattern.endswith(")")):
                yield function.source, at, f"{function.name}: match {subject}: {names}"
        for found in BRANCHES.finditer(function.body):
            if names := same_arguments((found[2].strip(), (found[3] or found[4] or "").strip())):
                yield function.source, function.start + found.start(), f"{function.name}: if {found[1].strip()}: {names}"


def same_arguments(values):
    calls = [(call[1], functions.parts_of(call[2])) for call in map(CALL.match, values) if call]
    there = [(name, given) for name, given in calls if not name.split("::")[-1][0].isupper() and given]
    first = set(there[0][1]) if there else set()
    alike = [name for name, given in there if len(first & set(given)) >= max(1, len(given) - 1)]
    return ", ".join(alike) if len(set(alike)) > 1 else ""


def tables(tree):
    for _, source in tree.files:
        for found in re.finditer(r"\[\s*fn\s*\(|:\s*fn\s*\(|&(?:mut )?dyn\b|Box<dyn", source.shown):
            yield source, found.start(), found[0]
