#!/usr/bin/env python3
"""Times the reading of an untyped and of a typed file of almost 1048576 bytes on tlua, and of the untyped one on luac5.3 -p where it is installed.
The files hold code that is hardly run. A missing peer is skipped; no gate depends on a figure."""

import os
import tempfile

from programs import peer, timed, tlua

MOST = 1048576


def filled(head, piece, tail):
    """As many pieces as a file may hold."""
    return head + piece * ((MOST - len(head) - len(tail)) // len(piece)) + tail


def main():
    block = "do local function f(a, b, ...) local s = (a + b * 2) .. 'text' if a < b then return f(b, a) end while not s do s = ... end return s, #s end end\n"
    untyped = filled("", block, "")
    typed = filled("local x: integer = 1 local y: any = 2\n", "x = x + 1 * 2 - x x = y\n", "print(x)\n")
    with tempfile.TemporaryDirectory() as folder:
        for name, text in (("a.lua", untyped), ("b.tl", typed), ("half.lua", filled("", block, "")[: MOST // 2 // len(block) * len(block)])):
            file = os.path.join(folder, name)
            with open(file, "w", encoding="utf-8") as it:
                it.write(text)
            seconds, ran = timed([tlua(), "run", file])
            line = f"{name:9} {len(text)} bytes: tlua {seconds:.3f} s, status {ran.returncode}"
            luac = peer("luac5.3", "luac")
            if luac and name.endswith(".lua"):
                other, done = timed([luac, "-p", file])
                if done.returncode:
                    raise SystemExit(f"luac refuses {name}: {done.stderr.decode()}")
                line += f", luac -p {other:.3f} s, ratio {seconds / max(other, 0.001):.1f}"
            print(line)


main()
