"""What tools make of the reference: tables of docs/HANDBOOK.md and of other pages, and the texts that examples in C print. Each is written, or compared."""

import pathlib
import sys

ROOT = pathlib.Path(__file__).resolve().parent.parent
PAGE = ROOT / "docs" / "HANDBOOK.md"
ANSWERS = PAGE.with_name("ANSWERS.md")


def with_tables(page, tables):
    """The page with each table in the place of the next one that has its heading."""
    lines, at = page.split("\n"), 0
    for table in tables:
        new = table.split("\n")
        while lines[at : at + 2] != new[:2]:
            at += 1
            if at == len(lines):
                sys.exit(f"there is no table with the heading {new[0]}")
        end = next((i for i in range(at, len(lines)) if not lines[i].startswith("|")), len(lines))
        lines[at:end] = new
        at += len(new)
    return "\n".join(lines)


def look_for(told, name, page):
    """Words that a page has to tell."""
    for words in told:
        if words not in page:
            sys.exit(f"docs/{name}.md does not tell: {words}")


def is_write(arguments, usage):
    """Whether `write` was asked for, and not `check`."""
    if arguments not in (["write"], ["check"]):
        sys.exit(usage)
    return arguments == ["write"]


def keep(write, name, made):
    """Writes each file that a tool has made, or compares it with what is there."""
    for path, content in made.items():
        if write:
            path.write_text(content)
        elif not path.exists() or path.read_text() != content:
            sys.exit(f"{path.relative_to(ROOT)} does not hold what tools/{name} writes")


def keep_tables(write, name, tables, texts=None, path=PAGE):
    """The tables, each a list of lines, in their page; and texts by their files."""
    keep(write, name, {path: with_tables(path.read_text(), ["\n".join(lines) for lines in tables]), **(texts or {})})
    return len(tables)
