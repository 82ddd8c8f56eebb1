#!/usr/bin/env python3
"""Draws figures of run.sh as an SVG chart: usage: chart.py NAME=FILE.. >figures.svg

Each FILE is what run.sh printed with a peer, NAME the peer's. The times of strq are those of the first file. Seconds on a scale of powers of
ten, since the inputs differ by that much.
"""
import math
import re
import sys

ROW = re.compile(r"^(\S+)\s+strq\s+([\d.]+) s.*?peer\s+([\d.]+) s")
WIDTH, LEFT, TOP, BAR, GAP = 760, 190, 58, 11, 12
COLOURS = ["own", "first", "second", "third"]
STYLE = """
  .paper { fill: #ffffff } text { font: 12px sans-serif; fill: #1f2328 } .title { font-weight: bold; font-size: 14px }
  .small { font-size: 10px; fill: #59636e } .grid { stroke: #d1d9e0; stroke-width: 1 }
  .own { fill: #0969da } .first { fill: #bc4c00 } .second { fill: #57606a } .third { fill: #8250df }
  @media (prefers-color-scheme: dark) {
    .paper { fill: #0d1117 } text { fill: #e6edf3 } .small { fill: #9198a1 } .grid { stroke: #3d444d }
    .own { fill: #4493f8 } .first { fill: #f0883e } .second { fill: #9198a1 } .third { fill: #a371f7 }
  }
"""


def read(path):
    """The times of strq and of the peer by input."""
    rows = {}
    with open(path, encoding="utf-8") as lines:
        for line in lines:
            found = ROW.match(line)
            if found:
                rows[found.group(1)] = (float(found.group(2)), float(found.group(3)))
    return rows


def main():
    if len(sys.argv) < 2 or not all("=" in word for word in sys.argv[1:]):
        sys.exit(__doc__)
    peers = [word.split("=", 1) for word in sys.argv[1:]]
    tables = [read(path) for _, path in peers]
    names = [name for name in tables[0] if all(name in table for table in tables)]
    times = {name: [tables[0][name][0]] + [table[name][1] for table in tables] for name in names}
    every = [time for row in times.values() for time in row if time > 0]
    if not every:
        sys.exit("chart.py: no row of run.sh")
    low, high = math.floor(math.log10(min(every))), math.ceil(math.log10(max(every)))

    def x(seconds):
        return LEFT + (math.log10(max(seconds, 10.0**low)) - low) / (high - low) * (WIDTH - LEFT - 70)

    row = BAR * (1 + len(peers)) + GAP
    height = TOP + row * len(names) + 34
    out = [f'<svg xmlns="http://www.w3.org/2000/svg" viewBox="0 0 {WIDTH} {height}" role="img" aria-label="Seconds by input">']
    out.append(f"<style>{STYLE}</style>")
    out.append(f'<rect class="paper" width="{WIDTH}" height="{height}"/>')
    out.append('<text class="title" x="16" y="24">Seconds by input, shorter is faster</text>')
    place = 16
    for colour, label in zip(COLOURS, ["strq"] + [name for name, _ in peers]):
        out.append(f'<rect class="{colour}" x="{place}" y="34" width="10" height="10"/>')
        out.append(f'<text x="{place + 15}" y="43">{label}</text>')
        place += 40 + 8 * len(label)
    for power in range(low, high + 1):
        at = x(10.0**power)
        out.append(f'<line class="grid" x1="{at:.1f}" y1="{TOP - 4}" x2="{at:.1f}" y2="{height - 26}"/>')
        out.append(f'<text class="small" x="{at:.1f}" y="{height - 12}" text-anchor="middle">{10.0**power:g} s</text>')
    for number, name in enumerate(names):
        y = TOP + number * row
        out.append(f'<text x="{LEFT - 8}" y="{y + row / 2:.1f}" text-anchor="end">{name.replace("_", " ")}</text>')
        for bar, (colour, seconds) in enumerate(zip(COLOURS, times[name])):
            at = y + bar * BAR
            out.append(f'<rect class="{colour}" x="{LEFT}" y="{at}" width="{max(x(seconds) - LEFT, 1):.1f}" height="{BAR - 2}"/>')
            out.append(f'<text class="small" x="{x(seconds) + 4:.1f}" y="{at + BAR - 3}">{seconds:.3f}</text>')
    out.append("</svg>")
    print("\n".join(out))


main()
