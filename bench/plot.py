"""The plot of the benchmark as SVG: for each case the CPU times of both versions on a logarithmic axis, and how instructions grow; below, the views of card 12."""
from html import escape
from math import floor, log10

INK, FAINT, GRID, PAPER = "#1f2328", "#656d76", "#d8dee4", "#ffffff"
RATTLE, RUST = "#0b63b8", "#c2570c"
LEFT, WIDTH, GAP, ROW, TOP = 330, 330, 60, 34, 92
GROWTH_WIDTH = 200


def text(x, y, words, anchor="start", fill=INK, size=13, weight="normal"):
    return f'<text x="{x:.1f}" y="{y:.1f}" text-anchor="{anchor}" fill="{fill}" font-size="{size}" font-weight="{weight}">{escape(words)}</text>'


def rule(x1, y1, x2, y2, stroke=GRID, width=1, dash=""):
    dash = f' stroke-dasharray="{dash}"' if dash else ""
    return f'<line x1="{x1:.1f}" y1="{y1:.1f}" x2="{x2:.1f}" y2="{y2:.1f}" stroke="{stroke}" stroke-width="{width}"{dash}/>'


def dot(x, y, fill, square=False):
    """Rattle is a circle and Rust a square, so that colour is not the only difference."""
    if square:
        return f'<rect x="{x - 5:.1f}" y="{y - 5:.1f}" width="10" height="10" fill="{fill}"/>'
    return f'<circle cx="{x:.1f}" cy="{y:.1f}" r="5.5" fill="{fill}"/>'


def ticks(low, high):
    """1, 2 and 5 times each power of ten between the two."""
    found = [m * 10.0**e for e in range(floor(log10(low)), floor(log10(high)) + 1) for m in (1, 2, 5)]
    return [x for x in found if low <= x <= high]


def plot(rows, few, most, views):
    """rows: name, CPU ms of (Rattle, Rust) at few and at most nodes, instructions at few and at most; views: name, CPU ms, quartiles, instructions."""
    values = [x for _, _, ms, _, _ in rows for x in ms] + [x for _, ms, _, _ in views for x in ms]
    low, high = min(values) / 1.4, max(values) * 1.4
    growths = [[b / a for a, b in zip(few_i, most_i)] for _, _, _, few_i, most_i in rows]
    limit = max(20, *(x for pair in growths for x in pair)) * 1.05
    middle = TOP + ROW * len(rows)
    bottom = middle + ROW * (len(views) + 1.5)
    right = LEFT + WIDTH + GAP
    width, height = right + GROWTH_WIDTH + 40, bottom + 40

    def at(ms):
        return LEFT + WIDTH * log10(ms / low) / log10(high / low)

    def grown(x):
        return right + GROWTH_WIDTH * x / limit

    def times(y, name, ms):
        return [
            text(LEFT - 14, y + 4.5, name.replace("`", ""), "end"),
            rule(at(ms[0]), y, at(ms[1]), y, FAINT, 1.5),
            dot(at(ms[1]), y, RUST, True) + dot(at(ms[0]), y, RATTLE),
        ]

    out = [
        f'<svg xmlns="http://www.w3.org/2000/svg" viewBox="0 0 {width} {height}" width="{width}" height="{height}" font-family="Helvetica, Arial, sans-serif">',
        f'<rect width="{width}" height="{height}" fill="{PAPER}"/>',
        text(16, 28, f"One line on a table of {most:,} records: Rattle beside Rust", size=16, weight="bold"),
        dot(22, 50, RATTLE) + text(34, 54.5, "Rattle"),
        dot(98, 50, RUST, True) + text(110, 54.5, "Rust"),
        text(LEFT, 78, "CPU ms, median (logarithmic)", fill=FAINT, size=12),
        text(right, 78, f"instructions, {most:,} over {few:,}", fill=FAINT, size=12),
    ]
    for x in ticks(low, high):
        out += [rule(at(x), TOP - 6, at(x), bottom), text(at(x), bottom + 18, f"{x:g}", "middle", FAINT, 12)]
    for x in range(0, int(limit) + 1, 4):
        out += [rule(grown(x), TOP - 6, grown(x), middle), text(grown(x), middle + 18, str(x), "middle", FAINT, 12)]
    out.append(rule(grown(most / few), TOP - 6, grown(most / few), middle, FAINT, 1.5, "4 3"))
    for i, ((name, _, ms, _, _), growth) in enumerate(zip(rows, growths)):
        y = TOP + ROW * (i + 0.5)
        out += times(y, name, ms)
        out.append(dot(grown(growth[1]), y + 7, RUST, True) + dot(grown(growth[0]), y - 6, RATTLE))
    out.append(text(LEFT - 14, middle + ROW, "view, beside the version for it alone:", "end", weight="bold"))
    for i, (name, ms, _, counts) in enumerate(views):
        y = middle + ROW * (i + 2)
        out += times(y, name.split(",")[0], ms)
        out.append(text(right, y + 4.5, f"{counts[0] / counts[1]:.2f} times the instructions", size=12))
    return "\n".join(out + ["</svg>", ""])
