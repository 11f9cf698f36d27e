"""The second way of tools/forms: signs that stand in one line of a file, whatever the code around them. Where the first way finds places, these signs are there too."""

import collections
import re

SRC, SPECS, INVARIANTS, ANSWERS = "crates/*/src/**/*.rt", "crates/*/specs/**/*.antt", "crates/*/proofs/**/Invariants.antt", "crates/*/proofs/**/Answers.antt"

SIGNS = {
    "1": {
        "a case `Refused(Refusal),` of an own enum": (SRC, r"^    (?:Refused\(Refusal\)|\w+\((?:Wrong|Fault)\)),$"),
        "a definition `.._says` of an answer": (SPECS, r"^(?:\w+ )*\w+_says :"),
        "a line that takes a refusal out by a match": (SRC, r"\b(?:Refused|Err|NoNumber|NoNext|Unread|Faulty|Not|Stop)\(\w+\) =>"),
        "a line that makes an own refusal": (SRC, r"\w+(?:Answer|Taken|Turn|Ordered)::(?:Refused|Faulty|No\w+|Unread|Not|Stop)\((?!\w+\) =>)"),
        "an arm `number => ..`": (SRC, r"^\s+(?:0x)?[0-9A-F_]+ => "),
        "an arm `.. => number,`": (SRC, r"::\w+(?:\(.*?\))? => (?:0x)?[0-9A-F_]+,$"),
        "a line with a `bool` that is given or held": (SRC, r": bool\b|\(bool,"),
    },
    "2": {},
    "3": {
        "a line `while ..`": (SRC, r"^\s*while "),
        "a line `.. += 1;` or `.. -= 1;`": (SRC, r"^\s*[\w.]+ [-+]= 1;"),
        "an invariant of a loop in a proof": (INVARIANTS, r"^(?:\w+ )*invariant-loop\S* :"),
        "a measure of a loop in a proof": (INVARIANTS, r"^(?:\w+ )*decreases-loop\S* :"),
    },
    "4": {
        "a function whose name ends in _of or _from, or begins with of_ or as_": (SRC, r"\bfn (?:\w+_(?:of|from)|(?:of|as|from|to)_\w+)\b"),
        "a line `field: other.field,` of the same name": (SRC, r"^\s+(\w+): (?:\w+\.)+\1,$"),
        "an arm from a case to a case": (SRC, r"^\s+\w+::\w+(?:\(\w+\))? => \w+::\w+(?:\(\w+\))?,$"),
        "a digit made or read": (SRC, r"[%/] 10\b|\b48 [-+]|[-+] 48\b"),
        "derives without PartialEq": (SRC, r"#\[derive\((?!.*PartialEq)"),
        "derives": (SRC, r"#\[derive\("),
    },
    "5": {
        "a clause that is a list of facts": (SRC, r"\brequires \{.*×"),
        "a line with a pen and a page": (SRC, r"\bpen: Pen, page: &mut \[u8\]"),
        "a line with a ledger and what lies beside it": (SRC, r"\bledger: &\[u64\], .*\b(?:errors|marks|counts)\b"),
        "clauses `length .. ≡ length ..`": (SRC, r"\blength [\w.]+ ≡ length [\w.]+"),
    },
    "6": {
        "an array of fixed size": (SRC, r"\[\w+(?:::\w+)?; \w+\]"),
        "a `count`, `length` or `many` of a buffer": (SRC, r"\b(?:count|length|many|used): (?:usize|u64)\b"),
        "two indexed names in one line": (SRC, r"\w\[(\w+)\].*\w\[\1\]"),
    },
    "7": {
        "a line `if board ..`": (SRC, r"\bif !?board\b"),
        "a line `match operation ..`": (SRC, r"\bmatch (?:\w+\.)*operation\b"),
        "an arm that calls a function and does nothing else": (SRC, r"^\s+[\w:]+ => (?:\w+::)*[a-z_]\w*\(.*\)\??,$"),
    },
    "8": {
        "answers to goals": (ANSWERS, r"^(?:pub )?\S+ : goal\."),
        "answers that are only a search": (ANSWERS, r"^\S+ \w+ = \(?search [\w◌]+\)?$"),
        "answers that are only arithmetic": (ANSWERS, r"^\S+ \w+ = omega arith$"),
        "laws brought in by name": ("crates/*/proofs/**/*.antt", r"^use Rattle\.\w+\.proofs\."),
    },
}
WINDOW = 6  # lines that stand twice, one after the other


def lines_of(root, pattern):
    for path in sorted(root.glob(pattern)):
        for number, line in enumerate(path.read_text().splitlines(), 1):
            yield f"{path.relative_to(root / 'crates')}:{number}", line


def found(root, pattern, sign):
    form = re.compile(sign)
    return [place for place, line in lines_of(root, pattern) if form.search(line) and not line.lstrip().startswith("//")]


def twice(root):
    """Runs of lines of code that stand in two places, but for numbers and the names in front of `::`; each run once."""
    held = collections.defaultdict(list)
    for path in sorted(root.glob(SRC)):
        kept = [(number, re.sub(r"\w+::|\d+", "", line).strip()) for number, line in enumerate(path.read_text().splitlines(), 1)]
        kept = [(number, line) for number, line in kept if len(line) > 1 and not re.match(r"//|use |ghost use |pub mod ", line)]
        for at in range(len(kept) - WINDOW + 1):
            held[tuple(line for _, line in kept[at : at + WINDOW])].append((path, at, f"{path.relative_to(root / 'crates')}:{kept[at][0]}"))
    twice = {(path, at): place for every in held.values() if len(every) > 1 for path, at, place in every}
    return [place for (path, at), place in sorted(twice.items(), key=lambda one: one[1]) if (path, at - 1) not in twice]


def show(root):
    for point, signs in SIGNS.items():
        for title, (pattern, sign) in signs.items():
            print(f"{point}. {title}: {len(found(root, pattern, sign))}")
        if point == "2":
            print(f"2. runs of {WINDOW} lines or more that stand in another place too, but for numbers and paths: {len(twice(root))}")
        print()
