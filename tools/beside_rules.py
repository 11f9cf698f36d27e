"""Two rules that change many places in one way: an own enum of an answer is a Result or an Option, and its `.._says` is the one `says`."""

import collections
import re

CODE = r"((?:Result|Option)<(?:[^<>]|<[^<>]*>)*>)"
LOGIC = r"\(?((?:Result|Option|Maybe) (?:[^\s()]+|\([^()]*\))(?: (?:[^\s()]+|\([^()]*\)))?)\)?"
CASE = r"(Ok|Err|Some|None|some|none)"


class Rules:
    """What is gone of the old tree by the rules, and what each is now as far as the new tree shows it."""

    def __init__(self, old, new):
        self.answers = {name: parts for (crate, name), parts in old.enums.items() if len(parts) == 2 and name not in new.types[crate]}
        self.crates = {name: crate for (crate, name) in old.enums if name in self.answers}
        self.cases = {re.match(r"\w+", part)[0] for parts in self.answers.values() for part in parts}
        self.says = {name for crate, specs in old.specs.items() for name in specs if name.endswith("_says") and name not in new.specs[crate]}
        self.become = collections.defaultdict(collections.Counter)

    def is_code(self, then, now):
        return self.matches(then, now, CODE)

    def is_logic(self, then, now):
        return self.matches(then, now, LOGIC)

    def matches(self, then, now, kind):
        """The new text is the old one with the rules put to it and nothing else; what each enum became is kept."""
        words = re.split(r"(\w+(?:(?:\.|::)\w+)?)", then)
        turned = [self.turned(word, kind) for word in words]
        match = re.fullmatch("".join(form or re.escape(word) for word, form in zip(words, turned)), now) if any(turned) else None
        found = [word for word, form in zip(words, turned) if form and form != "says"]
        for word, became in zip(found, match.groups() if match else ()):
            self.become[word][became] += 1
        return bool(match)

    def turned(self, word, kind):
        """What a word is by the rules, as a pattern; None where they leave it."""
        head, *case = re.split(r"\.|::", word)
        if head in self.answers:
            return CASE if case else kind
        return rf"(?:{CASE}|{word})" if word in self.cases else "says" if word in self.says else None

    def page(self, said):
        """The part of the page for the rules."""
        cases = {name: ", ".join(f"`{part}`" for part in parts) for name, parts in self.answers.items()}
        rows = [f"| `{name}` | `{self.crates[name]}` | {cases[name]} | {self.shown(name)} |" for name in sorted(cases)]
        if not rows:
            return []
        return [
            "\n## Two rules\n",
            "An own enum of two cases is a Result or an Option, in each signature, record, definition and law that has it. The definition",
            "`.._says`, which gave each of its cases a number and values, is `says` of `terms/specs/Outcome.antt` for every one: `Ok` is",
            "accepted, `Err` is refused with the refusal's own number and place.\n\n" + said + "\n",
            "| enum | crate | its cases | now |",
            "|---|---|---|---|",
            *rows,
            f"\n{len(self.says)} definitions are `says` now: " + ", ".join(f"`{name}`" for name in sorted(self.says)) + ".",
        ]

    def shown(self, name):
        """The types that it became, as the signatures have them, or else the definitions."""
        every = [became for became, _ in self.become[name].most_common()]
        return ", ".join(f"`{became}`" for became in [one for one in every if "<" in one] or every) or "no signature or definition had it"
