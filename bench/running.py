#!/usr/bin/env python3
"""Times five programs on tlua and, where it is installed, on lua5.3, in one run: processor seconds, their ratio and the geometric mean of the ratios.
Writes the figures to running.json and draws them to running.svg beside this script. A missing peer is skipped; no gate depends on a figure."""

import json
import math
import os

from programs import HERE, peer, timed, tlua

NAMES = ["fibonacci", "loops", "closures", "strings", "varargs"]


def measure():
    lua, rows = peer("lua5.3"), []
    for name in NAMES:
        file = os.path.join(HERE, "programs", f"{name}.lua")
        own, ran = timed([tlua(), "run", file])
        if ran.returncode != 0:
            raise SystemExit(f"{name}: status {ran.returncode}: {ran.stderr.decode(errors='replace')}")
        row = {"name": name, "tlua": own}
        if lua:
            row["lua"], other = timed([lua, file])
            if other.stdout != ran.stdout:
                raise SystemExit(f"{name}: the two write different output")
            row["ratio"] = own / max(row["lua"], 0.001)
        rows.append(row)
    return rows


def mean(rows):
    ratios = [it["ratio"] for it in rows if "ratio" in it]
    return math.exp(sum(map(math.log, ratios)) / len(ratios)) if ratios else None


def draw(rows, file):
    """Two bars a program, the seconds behind each."""
    most = max(max(it["tlua"], it.get("lua", 0)) for it in rows)
    lines, y = [], 34
    for row in rows:
        lines.append(f'<text x="92" y="{y + 17}" text-anchor="end">{row["name"]}</text>')
        for key, colour in (("tlua", "#3b6ea5"), ("lua", "#b0b0b0")):
            if key in row:
                width = 420 * row[key] / most
                lines.append(f'<rect x="100" y="{y}" width="{width:.1f}" height="12" fill="{colour}"/>')
                lines.append(f'<text x="{104 + width:.1f}" y="{y + 10}" font-size="10">{row[key]:.3f} s</text>')
            y += 14
        y += 10
    head = '<text x="100" y="20">processor seconds: <tspan fill="#3b6ea5">tlua</tspan>, <tspan fill="#808080">lua5.3</tspan></text>'
    body = "\n".join([head, *lines])
    with open(file, "w", encoding="utf-8") as it:
        it.write(f'<svg xmlns="http://www.w3.org/2000/svg" width="600" height="{y}" font-family="sans-serif" font-size="12">\n{body}\n</svg>\n')


def main():
    rows = measure()
    for row in rows:
        beside = f"  lua5.3 {row['lua']:.3f} s  ratio {row['ratio']:.2f}" if "lua" in row else ""
        print(f"{row['name']:10} tlua {row['tlua']:.3f} s{beside}")
    whole = mean(rows)
    if whole:
        print(f"geometric mean of the ratios: {whole:.2f}")
    with open(os.path.join(HERE, "running.json"), "w", encoding="utf-8") as it:
        json.dump({"rows": rows, "mean": whole}, it, indent=1)
    draw(rows, os.path.join(HERE, "running.svg"))


main()
