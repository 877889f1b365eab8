"""Checks the drawn pictures of the documents: the parts of docs/ARCHITECTURE.md with their crates, and a session before and after, from the
README. With `write` it draws them."""
import html
import os
import re
import sys

from tests.documents.architecture import crates
from tests.report import TOP, Report

CRATES = os.path.join(TOP, "docs", "crates.svg")
SESSION = os.path.join(TOP, "docs", "session.svg")
# The width of all boxes and of a name, the gap between boxes, the heights of a title and of a line, and the room between layers.
WIDTH, NAME, GAP, TITLE, LINE, ROOM = 860, 136, 14, 30, 20, 26
STYLE = "text{font-family:ui-sans-serif,Helvetica,Arial,sans-serif;font-size:12px;fill:#1f2328}.m{font-family:ui-monospace,Menlo,Consolas,monospace}"


def svg(width, height, body):
    return (
        f'<svg xmlns="http://www.w3.org/2000/svg" viewBox="0 0 {width} {height}" width="{width}" height="{height}">\n<style>{STYLE}</style>\n'
        f'<rect width="{width}" height="{height}" fill="#ffffff"/>\n' + "\n".join(body) + "\n</svg>\n"
    )


def parts():
    """Returns the parts of docs/ARCHITECTURE.md, from the lowest to the highest, each with its crates."""
    with open(os.path.join(TOP, "docs", "ARCHITECTURE.md"), encoding="utf-8") as file:
        table = file.read().split("| Part | Crates |\n|---|---|\n")[1].split("\n\n")[0]
    rows = re.findall(r"^\| (.*?) \| (.*) \|$", table, re.MULTILINE)
    return {part: re.findall(r"`(dap\w*|callers)`", text) for part, text in rows}


def parts_used(part_of):
    """Returns the parts that each part builds on, without those that another one of them builds on already."""
    used = {part: set() for part in part_of.values()}
    for name, below in crates():
        if name in part_of:
            used[part_of[name]] |= {part_of[it] for it in below if it in part_of} - {part_of[name]}
    every = {}
    for part in used:
        every[part] = used[part].union(*(every.get(it, set()) for it in used[part]))
    return {part: sorted(it for it in below if not any(it in every[other] for other in below)) for part, below in used.items()}


def layers(used):
    """Returns the parts by layer: each above all that it uses. Those that a part uses from two layers above come last."""
    depth = {}
    for part in used:
        depth[part] = 1 + max((depth[it] for it in used[part]), default=-1)
    far = {it for part in used for it in used[part] if depth[it] + 1 < depth[part]}
    return [sorted((part for part in used if depth[part] == layer), key=far.__contains__) for layer in range(max(depth.values()) + 1)]


def placed(rows, names):
    """Returns the left, the top, the width and the height of the box of each part, and the height of the picture."""
    boxes, top = {}, GAP
    for row in reversed(rows):
        width = (WIDTH - GAP * (len(row) - 1)) / len(row)
        height = TITLE + LINE * max(len(lines_of(names[part], width)) for part in row)
        for i, part in enumerate(row):
            boxes[part] = (GAP + i * (width + GAP), top, width, height)
        top += height + ROOM
    return boxes, top - ROOM + GAP


def lines_of(names, width):
    """Returns the names in lines that fit a box of this width."""
    each = int(width // NAME)
    return [names[i : i + each] for i in range(0, len(names), each)]


def line_between(upper, lower):
    """Returns a line from a box to one in the next layer, or at the right edge to one further below."""
    (x, y, width, height), (x2, y2, width2, height2) = upper, lower
    if y + height + ROOM < y2:
        path = f"M{x + width:.0f} {y + height / 2:.0f}h8V{y2 + height2 / 2:.0f}h-8"
    else:
        start = min(max(x2 + width2 / 2, x + GAP), x + width - GAP)
        end = min(max(start, x2 + GAP), x2 + width2 - GAP)
        path = f"M{start:.0f} {y + height:.0f}L{end:.0f} {y2:.0f}"
    return f'<path d="{path}" fill="none" stroke="#57606a"/>'


def box(part, names, place):
    """Returns the box of a part, with its crates."""
    x, y, width, height = place
    yield f'<rect x="{x:.0f}" y="{y:.0f}" width="{width:.0f}" height="{height:.0f}" rx="5" fill="#f6f8fa" stroke="#57606a"/>'
    yield f'<text x="{x + 12:.0f}" y="{y + 20:.0f}" font-weight="bold">{part}</text>'
    for i, line in enumerate(lines_of(names, width)):
        for j, crate in enumerate(line):
            yield f'<text class="m" x="{x + 12 + NAME * j:.0f}" y="{y + 40 + LINE * i:.0f}">{crate}</text>'


def crates_picture():
    names = parts()
    used = parts_used({crate: part for part, several in names.items() for crate in several})
    boxes, height = placed(layers(used), names)
    body = [line_between(boxes[part], boxes[it]) for part, below in used.items() for it in below]
    for part, place in boxes.items():
        body += box(part, names[part], place)
    return svg(WIDTH + 2 * GAP, height, body)


def marked(line):
    """Returns a line of `dapnorm show` with its ids in colour."""
    text = html.escape(line)
    return re.sub(r"((?:request_)?seq=|(?:frame|scope) )(\d+)", r'\1<tspan fill="#cf222e" font-weight="bold">\2</tspan>', text)


def session_picture():
    with open(os.path.join(TOP, "README.md"), encoding="utf-8") as file:
        text = file.read()
    body, most = [], 0
    for column, (mark, title) in enumerate((("before", "as recorded"), ("after", "dapnorm normalise"))):
        lines = re.search(rf"<!-- {mark} -->\n((?: {{4}}.*\n)+)", text)[1].rstrip("\n").split("\n")
        most = max(most, len(lines))
        left = 16 + 450 * column
        body.append(f'<text x="{left}" y="24" font-weight="bold">{title}</text>')
        for i, line in enumerate(lines):
            body.append(f'<text class="m" xml:space="preserve" x="{left}" y="{48 + 18 * i}">{marked(line[4:])}</text>')
    return svg(910, 48 + 18 * most, body)


def main():
    made = {CRATES: crates_picture(), SESSION: session_picture()}
    if sys.argv[1:] == ["write"]:
        for path, picture in made.items():
            with open(path, "w", encoding="utf-8") as file:
                file.write(picture)
        return 0
    report = Report()
    for path, picture in made.items():
        with open(path, encoding="utf-8") as file:
            report.check(f"{os.path.relpath(path, TOP)} is drawn from the sources: python3 -m tests.documents.pictures write", file.read() == picture)
    return report.close()


if __name__ == "__main__":
    sys.exit(main())
