#!/usr/bin/env python3
"""Draws docs/two-hills.svg: the sample's ground and its last level, with the turns that profile-turns lists for both.

Run from the top of the repository, with the command built:  python3 docs/picture.py
"""
import subprocess

SAMPLE = "sample/two-hills.txt"
WIDTH, HEIGHT, EDGE, PANEL = 860, 470, 46, 190


def levels(passes, heights):
    """Every level's exact samples, as pairs of numerator and scale."""
    scale = 1
    yield heights, scale
    for weights in passes:
        count = len(heights) - len(weights) + 1
        heights = [sum(w * heights[i + j] for j, w in enumerate(weights)) for i in range(count)]
        scale *= sum(weights)
        yield heights, scale


def read(path):
    schedule, profile = open(path).read().split("\n\n")
    rows = [line.rstrip(",").split(",")[1:] for line in schedule.splitlines()[1:]]
    passes = [[int(w) for w in row] for row in rows]
    heights = [int(line.split(",")[1]) for line in profile.splitlines()[1:]]
    return passes, heights


def panel(top, title, samples, scale, shift, turns, stations):
    """One level: a line through its samples, a mark at each turn."""
    def x(place):
        return EDGE + (place + shift) * (WIDTH - 2 * EDGE) / (stations - 1)

    def y(value):
        return top + PANEL - 12 - value / scale * (PANEL - 46) / 120

    points = " ".join(f"{x(i):.1f},{y(v):.1f}" for i, v in enumerate(samples))
    yield f'<text x="{EDGE}" y="{top + 14}" class="title">{title}</text>'
    yield f'<line x1="{EDGE}" x2="{WIDTH - EDGE}" y1="{y(0):.1f}" y2="{y(0):.1f}" class="base"/>'
    yield f'<polyline points="{points}" class="ground"/>'
    for place, kind in turns:
        yield f'<circle cx="{x(place):.1f}" cy="{y(samples[place]):.1f}" r="4.5" class="{kind}"/>'


def main():
    passes, heights = read(SAMPLE)
    drawn = list(levels(passes, heights))
    listing = subprocess.run(["./profile-turns", SAMPLE], capture_output=True, text=True, check=True).stdout
    rows = [line.split(",") for line in listing.splitlines()[1:]]
    parts = []
    for top, k, title in ((14, 0, "level 0, the ground"), (14 + PANEL + 26, len(passes), f"level {len(passes)}, after all passes")):
        turns = [(int(row[1]), row[2]) for row in rows if int(row[0]) == k]
        shift = sum(len(weights) - 1 for weights in passes[:k]) / 2
        parts += panel(top, f"{title}: {len(turns)} turns", *drawn[k], shift, turns, len(heights))
    style = (
        "text{font:14px sans-serif;fill:#333}.ground{fill:none;stroke:#456;stroke-width:2}.base{stroke:#ccc}"
        ".ridge{fill:#c40}.hollow{fill:#fff;stroke:#06a;stroke-width:2}"
    )
    legend = (
        f'<circle cx="{EDGE + 6}" cy="{HEIGHT - 14}" r="4.5" class="ridge"/><text x="{EDGE + 18}" y="{HEIGHT - 9}">ridge</text>'
        f'<circle cx="{EDGE + 86}" cy="{HEIGHT - 14}" r="4.5" class="hollow"/><text x="{EDGE + 98}" y="{HEIGHT - 9}">hollow</text>'
    )
    with open("docs/two-hills.svg", "w") as out:
        out.write(f'<svg xmlns="http://www.w3.org/2000/svg" viewBox="0 0 {WIDTH} {HEIGHT}"><style>{style}</style>\n')
        out.write(f'<rect width="{WIDTH}" height="{HEIGHT}" fill="#fff"/>\n')
        out.write("\n".join(parts) + "\n" + legend + "\n</svg>\n")


main()
