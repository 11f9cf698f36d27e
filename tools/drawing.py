"""What tools/picture draws with: words, boxes for the lines of a ledger, marks for drawing points."""

WIDTH, LEFT, RIGHT = 960, 30, 930
COLOURS = {"full": "#c9a227", "drawn": "#2f6f8f", "not drawn": "#d9dde1"}
INK = {"full": "#000000", "drawn": "#ffffff", "not drawn": "#333333"}
OPENING = (
    f'<svg xmlns="http://www.w3.org/2000/svg" width="{WIDTH}" height="HEIGHT" viewBox="0 0 {WIDTH} HEIGHT" '
    'font-family="DejaVu Sans, Verdana, sans-serif" font-size="13">'
)


def text(x, y, words, anchor="middle", colour="#000000", more=""):
    return f'<text x="{x:.1f}" y="{y:.1f}" text-anchor="{anchor}" fill="{colour}"{more}>{words}</text>'


def box(x, y, width, height, state):
    return f'<rect x="{x:.1f}" y="{y}" width="{width:.1f}" height="{height}" fill="{COLOURS[state]}" stroke="#ffffff"/>'


def mark(x, top, bottom):
    """A drawing point, above or below the row: the numbers in the row stay readable."""
    return f'<line x1="{x:.1f}" y1="{top}" x2="{x:.1f}" y2="{bottom}" stroke="#b3261e" stroke-width="3"/>'


def named_box(x, y, width, item, value, state):
    """A line of the ledger: its number above its value, where they have room."""
    parts = [box(x, y, width, 52, state)]
    if width > 8 * len(f"{value:,}") + 6:
        parts += [text(x + width / 2, y + 22, f"line {item}" if width > 52 else item, colour=INK[state])]
        parts += [text(x + width / 2, y + 41, f"{value:,}", colour=INK[state])]
    return parts


def legend(y):
    parts, x = [], LEFT
    for state, width in ("full", 210), ("drawn", 230), ("not drawn", 130):
        words = {"full": "full: error counts whole", "drawn": "drawn: covers a point", "not drawn": "not drawn"}[state]
        parts += [box(x, y, 16, 16, state), text(x + 23, y + 13, words, "start")]
        x += width
    return parts


def drawn_to(parts, y):
    """A picture of these parts, so high."""
    ground = f'<rect width="{WIDTH}" height="{y}" fill="#ffffff"/>'
    return "\n".join([OPENING.replace("HEIGHT", str(y)), ground, *parts, "</svg>\n"])
