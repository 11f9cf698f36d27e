"""The fact that the first line of an error of the prover names, as docs/FIRST-ERRORS.md shows it; tools/first-errors reads the lines."""

import re

# What `rt ci` prints of an error: so many characters. A line and a column that it holds have at most so many, so that the page does not change where they do.
PRINTED, PLACE = 160, len("9999:999")

ERROR = re.compile(r"(?P<before>(?:note: )?(?:\./)?)(?P<file>\S+?\.(?:antt|rt)):\d+:\d+: (?P<error>(?:error: )?)(?P<words>.*)")

# A path of modules before a name: its last part says enough, and a fact that is known keeps its own path (`c.args.now`).
PATH = re.compile(r"(?<![\w.·-])[A-Za-z]\w+(?:\.[\w+·-]+)*\.(?=[^\s.`)])")

# What an error says where a fact has no proof. Others are of an edit's form, as a name that is gone, or say only that a search gave up, that an argument is wanted
# or that two types are printed alike.
FACTS = (
    r"it is not proved that [^;]*\(`[^`]*`\)(?:$|; the facts )",
    r"`search` found no proof \(`[^`]*`\); the facts known there allow values at which this goal is false",
    r"(?:`[^`]*`: )?no proof of ",
    r"(?:`[^`]*`: )?the (?:goal|part)(?: `[^`]*` of the goal)? (?:fails|does not follow)",
    r"(?:as printed|computed as far as they go), the two (?:types|sides|values|indices) (?!are identical\b)",
    r"computed as a goal is, one side reads ",
    r"expected type `[^`]*`(?:,? but\b| \.\.$|$)",
    r"this `[^`]*` lands at index ",
    r"`[^`]*` ≟ `[^`]*(?:`? does not hold| \.\.`$)",
)
FACT = re.compile("|".join(FACTS))
DECLARED = re.compile(r"`([^`]*)`: ")
TACTIC = re.compile(r"^`(?:search|omega|grind|simp|rw)`: ")
FAILS = re.compile(r"^the ((?:goal|part)(?: `[^`]*` of the goal)?) does not follow\b(?:.*?\bfails, (at .*[^. ].*)|.*)")


def printed(line):
    """The file of an error's first line, and its words as far as they are printed whatever its place in the file."""
    found = ERROR.match(line)
    if not found:
        return None
    room = PRINTED - PLACE - len(found["before"] + found["file"] + ":" + ": " + found["error"])
    words = found["words"]
    return found["file"], words if len(words) < room else ended(words[:room])


def ended(words):
    """Words that are cut: to their last whole one, and out of a piece of code."""
    words = words.rsplit(" ", 1)[0].rstrip(" ,;") + " .."
    return words + "`" if words.count("`") % 2 else words


def fact_of(line):
    """The file and the fact that an error's first line names, with the goal or the law that has no proof; or nothing."""
    read = printed(line)
    if not read:
        return None
    file, words = read
    named = DECLARED.match(words)
    goal, rest = (named[1], words[named.end() :]) if named and not FACT.match(words) else ("", words)
    if not FACT.match(rest):
        return None
    said = TACTIC.sub("", PATH.sub("", re.sub(r"\?\d+", "?", rest)))
    said = FAILS.sub(lambda found: " ".join(filter(None, ["the", found[1], "fails", found[2]])), said)
    return f"`{file}`: " + (f"`{goal}`: " if goal else "") + said
