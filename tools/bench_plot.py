"""The picture of docs/PERFORMANCE.md: what each operation costs a line, by the number of lines."""

import math


def plot(rows, sizes, counts):
    """A line for each row: instructions a line by number of lines; the library in full, plain C dashed."""
    wide, high, left, top = 760, 460, 70, 40
    low, most = 8, 160

    def at(lines, cost):
        across = left + (math.log10(lines) - 4) / 2 * 420
        down = top + 360 * (1 - (math.log(cost) - math.log(low)) / (math.log(most) - math.log(low)))
        return across, down

    parts = [f'<svg xmlns="http://www.w3.org/2000/svg" width="{wide}" height="{high}" font-family="sans-serif" font-size="12">']
    parts.append(f'<rect width="{wide}" height="{high}" fill="white"/>')
    parts.append(f'<text x="{left}" y="22" font-size="14">Instructions a line: the proved library (full) and plain C (dashed)</text>')
    for cost in (10, 20, 40, 80, 160):
        down = at(10_000, cost)[1]
        parts.append(f'<line x1="{left}" y1="{down:.1f}" x2="{left + 420}" y2="{down:.1f}" stroke="#ddd"/>')
        parts.append(f'<text x="{left - 8}" y="{down + 4:.1f}" text-anchor="end">{cost}</text>')
    for lines in sizes:
        across = at(lines, low)[0]
        parts.append(f'<text x="{across:.1f}" y="{top + 380}" text-anchor="middle">{lines:,} lines</text>')
    colours = ["#555", "#1b6ca8", "#2a9d8f", "#7b2cbf", "#e76f51", "#c9184a", "#8d99ae", "#b08900", "#457b9d", "#6d4c41", "#588157", "#3a0ca3", "#d4a373", "#006d77", "#9d0208", "#0077b6", "#bc4749", "#4a4e69", "#80b918"]
    ends = []
    for (row, name), colour in zip(rows, colours):
        for which, dash in ((0, ""), (1, ' stroke-dasharray="5 4"')):
            points = " ".join("%.1f,%.1f" % at(lines, counts[row, lines][which] / lines) for lines in sizes)
            parts.append(f'<polyline points="{points}" fill="none" stroke="{colour}" stroke-width="1.8"{dash}/>')
        ends.append([at(sizes[-1], counts[row, sizes[-1]][0] / sizes[-1])[1], name.split(" (")[0], colour])
    ends.sort()
    for above, here in zip(ends, ends[1:]):
        here[0] = max(here[0], above[0] + 15)
    for down, name, colour in ends:
        parts.append(f'<text x="{left + 430}" y="{down + 4:.1f}" fill="{colour}">{name}</text>')
    return "\n".join(parts + ["</svg>"]) + "\n"
