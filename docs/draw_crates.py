#!/usr/bin/env python3
"""Draws the crates of crates.txt as docs/crates.svg: each group with its crates, and which groups stand on which.

    docs/draw_crates.py           writes the drawing
    docs/draw_crates.py --check   status 1 where the drawing is not that of crates.txt

A heading of crates.txt names a group and says what it is. A group stands above all that its crates use; a line leads to each group that
is used, but for those that are reached through another one anyway. No crate uses one of a group above its own: the drawing says where.
"""
import pathlib
import sys

TOP = pathlib.Path(__file__).resolve().parent.parent
DRAWING = TOP / "docs" / "crates.svg"
# Fill and border of each group, apart in print and for colour-blind readers (the Okabe-Ito colours, lightened).
COLOURS = [("#cfe8f7", "#0072b2"), ("#ffe3b3", "#b26b00"), ("#c9ecdf", "#007a59"), ("#f3d6e6", "#a8457c"), ("#e6e6e6", "#444444")]
WIDTH, MARGIN, GAP, HEAD, LINE, CELL, PAD = 1100, 16, 30, 44, 18, 150, 12


class Group:
    """A heading of crates.txt: its name, what it is, and its crates."""

    def __init__(self, heading):
        self.name, _, self.says = heading.partition(": ")
        self.crates = []
        self.left = self.top = self.width = 0

    @property
    def columns(self):
        return max(1, (self.width - PAD) // CELL)

    @property
    def height(self):
        return HEAD + LINE * -(-len(self.crates) // self.columns) + PAD // 2


def read_groups():
    """The groups, and the crates of this repository that each crate uses."""
    groups, uses = [], {}
    for line in (TOP / "crates.txt").read_text().splitlines():
        if line.startswith("#"):
            groups.append(Group(line[1:].strip()))
        elif ":" in line:
            name, used = line.split(":")
            name = name.split()[0]
            groups[-1].crates.append(name)
            uses[name] = used.split()
    return groups, {name: [it for it in used if it in uses] for name, used in uses.items()}


def below(groups, uses):
    """The groups that each group uses, by their places."""
    place = {name: at for at, group in enumerate(groups) for name in group.crates}
    found = [set() for _ in groups]
    for name, used in uses.items():
        for it in used:
            if place[it] > place[name]:
                sys.exit(f"crates.txt: {name} of `{groups[place[name]].name}` uses {it} of `{groups[place[it]].name}`, which stands above it")
            found[place[name]].add(place[it])
    return [used - {at} for at, used in enumerate(found)]


def reached(used, at):
    """All groups below a group."""
    return used[at].union(*(reached(used, it) for it in used[at]))


def rows_of(used):
    """The groups of each row, from the top: a group stands right above the highest that it uses."""
    depth = []
    for lower in used:
        depth.append(1 + max((depth[it] for it in lower), default=-1))
    return [[at for at, it in enumerate(depth) if it == row] for row in range(max(depth), -1, -1)]


def place(groups, rows):
    """Puts each group in its row, as wide as its crates ask for; answers the height of all."""
    top = MARGIN
    for row in rows:
        wanted = {at: max(4, min(len(groups[at].crates), 7)) for at in row}
        room, left = WIDTH - 2 * MARGIN - GAP * (len(row) - 1), MARGIN
        for at in row:
            groups[at].left, groups[at].top = left, top
            groups[at].width = room * wanted[at] // sum(wanted.values())
            left += groups[at].width + GAP
        top += max(groups[at].height for at in row) + GAP
    return top - GAP + MARGIN


def boxes(groups):
    """Each group with its name, what it is, and its crates."""
    for at, group in enumerate(groups):
        fill, border = COLOURS[at % len(COLOURS)]
        yield (f'<rect x="{group.left}" y="{group.top}" width="{group.width}" height="{group.height}" rx="6" fill="{fill}" '
               f'stroke="{border}"/>')
        yield f'<text x="{group.left + PAD}" y="{group.top + 18}" font-weight="bold" fill="#111">{group.name}</text>'
        yield f'<text x="{group.left + PAD}" y="{group.top + 34}" font-size="11" fill="#333">{group.says}</text>'
        for number, name in enumerate(group.crates):
            x, y = group.left + PAD + CELL * (number % group.columns), group.top + HEAD + 8 + LINE * (number // group.columns)
            yield f'<text x="{x}" y="{y}" font-family="monospace" fill="#111">{name}</text>'


def arrows(groups, used):
    """A line from each group to each that it uses, without those that it reaches through another."""
    for at, lower in enumerate(used):
        direct = sorted(it for it in lower if not any(it in reached(used, other) for other in lower))
        for number, it in enumerate(direct):
            upper, under = groups[at], groups[it]
            x = upper.left + upper.width * (number + 1) / (len(direct) + 1)
            to_x = min(max(x, under.left + PAD), under.left + under.width - PAD)
            yield (f'<line x1="{x:.0f}" y1="{upper.top + upper.height}" x2="{to_x:.0f}" y2="{under.top}" stroke="#444" stroke-width="1.5" '
                   f'marker-end="url(#tip)"><title>{upper.name}: stands on {under.name}</title></line>')


def drawing():
    groups, uses = read_groups()
    used = below(groups, uses)
    height = place(groups, rows_of(used))
    out = [f'<svg xmlns="http://www.w3.org/2000/svg" viewBox="0 0 {WIDTH} {height}" width="{WIDTH}" height="{height}" '
           'font-family="sans-serif" font-size="13">',
           "<title>The crates of pdbench by their groups, and which group stands on which</title>",
           '<defs><marker id="tip" viewBox="0 0 8 8" refX="8" refY="4" markerWidth="8" markerHeight="8" orient="auto">'
           '<path d="M0 0 L8 4 L0 8 z" fill="#444"/></marker></defs>',
           '<rect width="100%" height="100%" fill="white"/>', *arrows(groups, used), *boxes(groups)]
    return "\n".join(out + ["</svg>"]) + "\n"


def main():
    if sys.argv[1:] == ["--check"]:
        if not DRAWING.exists() or DRAWING.read_text() != drawing():
            print("docs/crates.svg is not the drawing of crates.txt: run docs/draw_crates.py", file=sys.stderr)
            return 1
    else:
        DRAWING.write_text(drawing())
    return 0


if __name__ == "__main__":
    sys.exit(main())
