"""Plots of what was measured, as SVG: instructions beside peers, and the growth of a line's cost with the rows of tables."""
import math
import re

WIDTH, LEFT, RIGHT, BAR, GAP = 720, 150, 90, 12, 10
COLORS = ["#1f6f8b", "#b0b7bd", "#e0a458", "#c8553d"]
TEXT = 'font-family="sans-serif" font-size="12" fill="#333"'


def tables(text):
    """The tables of a page, each as its rows of cells, the head first."""
    for block in re.findall(r"^\|.*?(?=\n\n|\Z)", text, re.M | re.S):
        rows = [[cell.strip(" *`") for cell in row.strip("| ").split(" | ")] for row in block.split("\n")]
        yield [row for row in rows if not set("".join(row)) <= set("-| ")]


def numbers(row):
    """Its cells as numbers, None where one is none."""
    found = [re.match(r"[0-9][0-9,]*", cell) for cell in row]
    return [int(it[0].replace(",", "")) if it else None for it in found]


def framed(height, title, parts):
    """A whole picture."""
    head = f'<svg xmlns="http://www.w3.org/2000/svg" width="{WIDTH}" height="{height}" role="img" aria-label="{title}">'
    return "\n".join([head, f'<rect width="{WIDTH}" height="{height}" fill="#fff"/>', *parts, "</svg>", ""])


def legend(names, y):
    x = LEFT
    for name, color in zip(names, COLORS):
        yield f'<rect x="{x}" y="{y}" width="{BAR}" height="{BAR}" fill="{color}"/>'
        yield f'<text x="{x + BAR + 4}" y="{y + 10}" {TEXT}>{name}</text>'
        x += 40 + 7 * len(name)


def bars(title, names, groups):
    """A group of bars for each command, as long as the logarithm of their numbers."""
    top = max(it for _, row in groups for it in row if it)
    scale = (WIDTH - LEFT - RIGHT) / math.log10(top / 100)
    parts, y = list(legend(names, 10)), 36
    for name, row in groups:
        parts.append(f'<text x="{LEFT - 8}" y="{y + 10}" text-anchor="end" {TEXT}>{name}</text>')
        for value, color in zip(row, COLORS):
            if value:
                long = max(2, scale * math.log10(value / 100))
                parts.append(f'<rect x="{LEFT}" y="{y}" width="{long:.0f}" height="{BAR}" fill="{color}"/>')
                parts.append(f'<text x="{LEFT + long + 4:.0f}" y="{y + 10}" {TEXT}>{value:,}</text>')
                y += BAR + 2
        y += GAP
    return framed(y, title, parts)


def lines(title, counts, groups):
    """A line for each command over growing numbers of rows."""
    top, high, last = max(max(row) for _, row in groups), 240, math.log10(counts[-1] / counts[0])
    place = lambda count, value: (LEFT + (WIDTH - LEFT - RIGHT - 60) * math.log10(count / counts[0]) / last,
                                  40 + high * (1 - value / top))
    parts = []
    for count in counts:
        parts.append(f'<text x="{place(count, 0)[0]:.0f}" y="{high + 58}" text-anchor="middle" {TEXT}>{count:,} rows</text>')
    for (name, row), color in zip(groups, COLORS):
        points = [place(*pair) for pair in zip(counts, row)]
        parts.append(f'<polyline fill="none" stroke="{color}" stroke-width="2" points="'
                     + " ".join(f"{x:.0f},{y:.0f}" for x, y in points) + '"/>')
        parts.append(f'<text x="{points[-1][0] + 6:.0f}" y="{points[-1][1] + 4:.0f}" {TEXT}>{name} {row[-1]:,}</text>')
        parts.append(f'<text x="{points[0][0] - 6:.0f}" y="{points[0][1] + 4:.0f}" text-anchor="end" {TEXT}>{row[0]:,}</text>')
    return framed(high + 70, title, parts)


def peers(found):
    """Instructions a line of this program, plain Rust and ICU4C in two forms."""
    [head, *rows] = next(it for it in found if it[0][:3] == ["command", "this program", "plain Rust"] and "goal" in it[0][3]
                         and "Node.js" not in it[0])
    columns = [1, 2, 6 if len(head) > 6 else 4, 4]
    groups = [(row[0], [numbers(row)[at] for at in columns]) for row in rows]
    return bars("Instructions a line, on a logarithmic scale", ["this program", "plain Rust", "ICU4C, own form", "ICU4C"], groups)


def growth(found):
    """Instructions a line over 100, 1,000 and 8,000 rows."""
    [_, *rows] = next(it for it in found if it[0][:2] == ["command", "100 rows"])
    return lines("Instructions a line by rows of tables", [100, 1_000, 8_000], [(row[0], numbers(row)[1::2]) for row in rows])


def write(page, folder):
    """Writes both plots of a page beside it."""
    found = list(tables(page.read_text()))
    for name, plot in (("instructions", peers), ("growth", growth)):
        (folder / f"{name}.svg").write_text(plot(found))
