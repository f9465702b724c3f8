#!/usr/bin/env python3
"""Draws docs/speed.svg of the table of seconds in bench/README.md: speed.py [--check]

With --check it compares, and its status is 1 where the picture isn't that of the table.
"""
import os
import re
import sys

TOP = os.path.dirname(os.path.dirname(os.path.abspath(__file__)))
TABLE, PICTURE = f"{TOP}/bench/README.md", f"{TOP}/docs/speed.svg"
# The columns that are drawn: what they are of, and in which shade.
DRAWN = {"mixed-6": ("lines of all kinds", "#4878a8"), "points-6": ("lines of one point", "#a8bcd0")}
LEFT, WIDTH, BAR, GAP, TOP_ROOM = 190, 430, 15, 14, 44


def rows():
    """The table of seconds: a name and a figure for each column that is drawn."""
    with open(TABLE, encoding="utf-8") as page:
        lines = re.search(r"^Seconds .*\n\n((?:\|.*\n)+)", page.read(), re.M)[1].strip().split("\n")
    cells = [[cell.strip().replace("`", "").replace("*", "") for cell in line.strip("|").split("|")] for line in lines]
    head = cells[0]
    for row in cells[2:]:
        yield row[0], {name: float(figure) for name, figure in zip(head[1:], row[1:]) if name in DRAWN}


def picture():
    table = list(rows())
    most = max(max(figures.values()) for _, figures in table)
    height = TOP_ROOM + len(table) * (BAR * len(DRAWN) + GAP)
    out = [
        f'<svg xmlns="http://www.w3.org/2000/svg" width="{LEFT + WIDTH + 70}" height="{height}"'
        ' font-family="sans-serif" font-size="12">',
        '<rect width="100%" height="100%" fill="#ffffff"/>',
        '<text x="8" y="16" font-weight="bold">Seconds for the canonical texts of 500 MB (less is better)</text>',
    ]
    for at, (name, shade) in enumerate(DRAWN.values()):
        out.append(
            f'<rect x="{8 + 150 * at}" y="24" width="10" height="10" fill="{shade}"/>'
            f'<text x="{22 + 150 * at}" y="33">{name}</text>'
        )
    y = TOP_ROOM
    for name, figures in table:
        out.append(f'<text x="{LEFT - 8}" y="{y + BAR * len(DRAWN) / 2 + 4:g}" text-anchor="end">{name}</text>')
        for column, (_, shade) in DRAWN.items():
            long = WIDTH * figures[column] / most
            out.append(f'<rect x="{LEFT}" y="{y}" width="{long:.1f}" height="{BAR - 2}" fill="{shade}"/>')
            out.append(f'<text x="{LEFT + long + 5:.1f}" y="{y + BAR - 4}">{figures[column]:g}</text>')
            y += BAR
        y += GAP
    return "\n".join(out + ["</svg>"]) + "\n"


def main():
    drawn = picture()
    if "--check" in sys.argv:
        with open(PICTURE, encoding="utf-8") as there:
            return 0 if there.read() == drawn else f"{PICTURE}: not the picture of the table"
    with open(PICTURE, "w", encoding="utf-8") as there:
        there.write(drawn)
    return 0


if __name__ == "__main__":
    sys.exit(main())
