#!/usr/bin/env python3
"""Draws the tokens' rows of what bench/run.sh prints as bars, ours over the peer's time, a panel for each version.

    bench/plot.py RUN.. > docs/speed.svg      draws
    bench/plot.py --table RUN..               prints all rows as a table in place of that

RUN is a file of a run's output. Of several runs a row is taken from the one in which it was quietest: in which both
sides together took the least time. Its figures are never mixed with those of another run.
"""

import math
import re
import sys
from html import escape

ROW = re.compile(r"^(\S.*?)\s+(0 B|100 B|1 KB|10 KB|1 MB)\s+(\d+)\s+(\d+)\s+\d+\.\d+(\s|$)")
LOAD = re.compile(r"load before the run: ([\d.]+)")
SIZES = ["0 B", "100 B", "1 KB", "10 KB", "1 MB"]
PANELS = ["v1", "v2", "v3", "v4"]
KINDS = {"seal": "#0072b2", "open": "#56b4e9", "sign": "#d55e00", "verify": "#e69f00"}
# What the legend calls them: the calls for tokens.
CALLS = {"seal": "encrypt", "open": "decrypt", "sign": "sign", "verify": "verify"}
# The axis is a logarithm, on which twice and half the peer's time are as far from the line of the peer.
LEAST, MOST = 0.125, 4
WIDTH, HEIGHT, LEFT, TOP, GAP = 430, 190, 50, 74, 74


def read(paths):
    """The ratio of each subject and size, and what the runs say of date, processor, peers and load."""
    times, lines, loads = {}, [], []
    for path in paths:
        with open(path, encoding="utf-8") as run:
            for line in map(str.strip, run):
                row, load = ROW.match(line), LOAD.match(line)
                if row:
                    pair = int(row[3]), int(row[4])
                    best = times.setdefault(row[1], {})
                    best[row[2]] = min(best.get(row[2], pair), pair, key=sum)
                elif load:
                    loads.append(float(load[1]))
                elif re.match(r"\d{4}-\d\d-\d\d, |peers: ", line) and line not in lines:
                    lines.append(line)
    if loads:
        lines.append(f"load before each of {len(loads)} runs: {min(loads):.1f} to {max(loads):.1f}")
    ratios = {name: {size: ours / peer for size, (ours, peer) in row.items()} for name, row in times.items()}
    return ratios, lines


def height(ratio):
    """How far above the panel's foot a ratio stands."""
    within = min(max(ratio, LEAST), MOST)
    return HEIGHT * math.log(within / LEAST) / math.log(MOST / LEAST)


def text(x, y, content, size=11, anchor="middle", extra=""):
    return f'<text x="{x:.1f}" y="{y:.1f}" font-size="{size}" text-anchor="{anchor}"{extra}>{escape(content)}</text>'


def bar(x, width, foot, ratio, kind, label):
    line, end = foot - height(1), foot - height(ratio)
    top, depth = min(line, end), abs(line - end)
    yield (
        f'<rect x="{x:.1f}" y="{top:.1f}" width="{width:.1f}" height="{max(depth, 0.5):.1f}" fill="{KINDS[kind]}">'
        f"<title>{escape(label)}: {ratio:.2f}</title></rect>"
    )
    yield text(x + width / 2, end - 3 if ratio >= 1 else end + 8, f"{ratio:.2f}".lstrip("0"), 7)


def panel(version, ratios, left, top):
    foot = top + HEIGHT
    yield text(left, top - 10, f"Version {version[1:]}", 13, "start", ' font-weight="bold"')
    ratio = LEAST
    while ratio <= MOST:
        y = foot - height(ratio)
        colour = "#000" if ratio == 1 else "#ddd"
        yield f'<line x1="{left}" x2="{left + WIDTH}" y1="{y:.1f}" y2="{y:.1f}" stroke="{colour}"/>'
        yield text(left - 6, y + 4, f"{ratio:g}", 10, "end")
        ratio *= 2
    kinds = [kind for kind in KINDS if f"{version} {kind}" in ratios]
    group = WIDTH / len(SIZES)
    for place, size in enumerate(SIZES):
        yield text(left + group * (place + 0.5), foot + 16, size)
        for turn, kind in enumerate(kinds):
            if size in ratios[f"{version} {kind}"]:
                width = group * 0.86 / len(kinds)
                x = left + group * (place + 0.07) + width * turn
                label = f"version {version[1:]}, {CALLS[kind]}, {size}"
                yield from bar(x, width - 1, foot, ratios[f"{version} {kind}"][size], kind, label)


def draw(ratios, lines):
    shown = [version for version in PANELS if any(name.startswith(version + " ") for name in ratios)]
    rows = (len(shown) + 1) // 2
    full = 2 * (WIDTH + LEFT) + 30
    down = TOP + rows * (HEIGHT + GAP) + 14 * len(lines)
    yield f'<svg xmlns="http://www.w3.org/2000/svg" viewBox="0 0 {full} {down}" font-family="sans-serif">'
    yield f'<rect width="{full}" height="{down}" fill="#fff"/>'
    yield text(LEFT, 22, "Time beside the peer's: below 1 is faster than the peer", 14, "start")
    for place, (kind, colour) in enumerate(KINDS.items()):
        yield f'<rect x="{LEFT + 80 * place}" y="32" width="11" height="11" fill="{colour}"/>'
        yield text(LEFT + 80 * place + 16, 42, CALLS[kind], 11, "start")
    for place, version in enumerate(shown):
        yield from panel(version, ratios, LEFT + (place % 2) * (WIDTH + LEFT), TOP + (place // 2) * (HEIGHT + GAP))
    for place, line in enumerate(lines):
        yield text(LEFT, TOP + rows * (HEIGHT + GAP) - 20 + 14 * place, line, 10, "start")
    yield "</svg>"


def table(ratios):
    yield "| ours / peer | " + " | ".join(SIZES) + " |"
    yield "|---" * (len(SIZES) + 1) + "|"
    for name, row in ratios.items():
        yield f"| {name} | " + " | ".join(f"{row[size]:.2f}" if size in row else "" for size in SIZES) + " |"


def main(words):
    is_table = words[:1] == ["--table"]
    paths = words[is_table:]
    if not paths or paths[0].startswith("-"):
        sys.exit("usage: bench/plot.py [--table] RUN..")
    ratios, lines = read(paths)
    if not ratios:
        sys.exit("There is no row of bench/run.sh in it.")
    print("\n".join(table(ratios) if is_table else draw(ratios, lines)))


if __name__ == "__main__":
    main(sys.argv[1:])
