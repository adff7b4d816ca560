#!/usr/bin/env python3
"""Runs the program on files of 1 MB that nest one form as often as fits, after the gate: each has to be refused at the first token that is too deep, or be
read where nothing nests, and half a file has to take about half as long."""

import os
import sys
import tempfile

from programs import tlua, wall

SIZE = 1000000

# what stands before, the part that is repeated, what stands behind, the file's ending, and the report that is wanted: place and code, or none of these
NESTS = [
    ("return ", "(", "", "lua", "1:209 P4"),
    ("return ", "- ", "", "lua", "1:410 P4"),
    ("return ", "not ", "", "lua", "1:812 P4"),
    ("return ", "{", "", "lua", "1:209 P4"),
    ("return a", "..a", "", "lua", "1:612 P4"),
    ("return ", "function() ", "", "lua", "1:27 P1"),
    ("return ", "function() return ", "", "lua", "1:3599 P4"),
    ("x = a", ".a", "", "lua", "1:2005 P4"),
    ("f", "()", "", "lua", "1:2001 P4"),
    ("return 1", " + 1", "", "lua", "1:4008 P4"),
    ("", "if a then ", "", "lua", "1:2004 P4"),
    ("", "while a do ", "", "lua", "1:2207 P4"),
    ("", "function f() ", "", "lua", "1:2599 P4"),
    ("local a if a then ", "elseif a then ", "end", "lua", None),
    ("local x: ", "(", "", "tl", "1:211 P4"),
    ("local x: ", "{", "", "tl", "1:211 P4"),
    ("local x: nil", " | nil", "", "tl", None),
]


def main():
    program, faults = tlua(), 0
    with tempfile.TemporaryDirectory() as folder:
        for before, part, behind, ending, wanted in NESTS:
            took = []
            for size in (SIZE // 2, SIZE):
                name = f"deep.{ending}"
                file = os.path.join(folder, name)
                with open(file, "w", encoding="ascii") as it:
                    it.write(before + part * ((size - len(before) - len(behind)) // len(part)) + behind)
                seconds, ran = wall([program, "run", file], 20)
                took.append(seconds)
                report = ran.stderr.decode() if ran else "not within 20 seconds"
                if wanted:
                    right = report == f"refused {file}:{wanted}\n"
                else:
                    right = ran is not None and ran.returncode in (0, 3) and " P" not in report
                if not right:
                    faults += 1
                    print(f"{part!r}: {report[:100]!r}, not {wanted}")
            print(f"{before + part!r}: " + ", ".join("-" if it is None else f"{it:.2f}" for it in took) + " s")
    print(f"{faults} faults")
    return 1 if faults else 0


sys.exit(main())
