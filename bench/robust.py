#!/usr/bin/env python3
"""Runs the program on random files, on mutated programs and on generated ones, after the gate: robust.py [random] [mutated] [generated], by default
20000, 20000 and 5000. Each call has to end within a second with a status of the table and a report of the defined form. Where lua5.3 is installed and
neither of the two ends with an error, both have to write the same output. The seed is fixed."""

import os
import random
import re
import sys
import tempfile
from concurrent.futures import ThreadPoolExecutor

from programs import ROOT, peer, tlua, wall

PLACE = rb"[^\n]*:\d+:\d+"
CROSSINGS = rb"(crossing " + PLACE + rb" (place|operand|equal|expose)\n)*"
KIND = rb"(kind " + PLACE + rb" after (" + PLACE + rb" (place|operand|equal|expose)|none)\n)?"
FORMS = {
    0: CROSSINGS + KIND + rb"done \d+\n",
    1: CROSSINGS + KIND + rb"error \d+ [ -~]*\n",
    3: rb"refused " + PLACE + rb" [A-Z]\d+\n",
    6: CROSSINGS + KIND + rb"cut \d+\n",
    7: rb"[^$]*",
}
WORDS = """and break do else elseif end false for function goto if in local nil not or repeat return then true until while print x y f t
+ - * / % ^ # & ~ | << >> // == ~= <= >= < > = ( ) { } [ ] :: ; : , . .. ... ? -> 0 1 17 0x1F 9223372036854775807 "s" 'a\\n' [[long]] integer any const""".split()


def fault(name, ran, seconds):
    """What is wrong with a call, or None."""
    if seconds is None or seconds > 1:
        return f"{name}: not within a second"
    form = FORMS.get(ran.returncode)
    if form is None:
        return f"{name}: status {ran.returncode}"
    if not re.fullmatch(form, ran.stderr):
        return f"{name}: report {ran.stderr[:200]!r}"
    return None


def random_files(chance, count):
    for number in range(count):
        if number % 2:
            text = bytes(chance.randrange(256) for _ in range(chance.randrange(200)))
        else:
            text = " ".join(chance.choice(WORDS) for _ in range(chance.randrange(40))).encode()
        yield f"random{number}." + chance.choice(["lua", "tl"]), text


def sources():
    found = []
    for folder in ("examples", os.path.join("bench", "samples")):
        for at, _, names in os.walk(os.path.join(ROOT, folder)):
            for name in names:
                if name.endswith((".lua", ".tl")):
                    with open(os.path.join(at, name), "rb") as it:
                        found.append((name, it.read()))
    return found


def mutated_files(chance, count):
    all = sources()
    for number in range(count):
        name, text = chance.choice(all)
        text = bytearray(text)
        for _ in range(chance.randrange(1, 5)):
            at = chance.randrange(len(text) + 1)
            match chance.randrange(3):
                case 0:
                    del text[at : at + chance.randrange(1, 8)]
                case 1:
                    text[at:at] = (" " + chance.choice(WORDS) + " ").encode()
                case 2:
                    text[at : at + 1] = bytes([chance.randrange(256)])
        yield f"mutated{number}{name[name.index('.'):]}", bytes(text)


class Program:
    """A program of the forms that run: locals, functions, loops and arithmetic."""

    def __init__(self, chance):
        self.chance, self.names, self.functions, self.lines = chance, ["a", "b"], [], []

    def atom(self):
        return self.chance.choice([str(self.chance.randrange(-3, 20)), *self.names, "0x10"])

    def expression(self, depth=0):
        if depth > 2 or self.chance.random() < 0.3:
            return self.atom()
        kind = self.chance.randrange(8)
        one, two = self.expression(depth + 1), self.expression(depth + 1)
        if kind < 4:
            return f"({one} {self.chance.choice(['+', '-', '*', '&', '|', '~'])} {two})"
        if kind == 4:
            return f"({one} // {self.chance.choice([3, 7, -2])} + {two} % {self.chance.choice([5, -4])})"
        if kind == 5:
            return f"({one} < {two} and {one} or {two})"
        if kind == 6 and self.functions:
            return f"{self.chance.choice(self.functions)}({one}, {two})"
        return f"({one} << {self.chance.randrange(70)})"

    def block(self, depth, indent):
        held = list(self.names)
        for _ in range(self.chance.randrange(1, 5)):
            self.statement(depth, indent)
        self.names = held

    def statement(self, depth, indent):
        pad, kind = "  " * indent, self.chance.randrange(8 if depth else 5)
        name = f"v{len(self.lines)}"
        if kind == 0:
            self.lines.append(f"{pad}local {name} = {self.expression()}")
            self.names.append(name)
        elif kind == 1:
            self.lines.append(f"{pad}{self.chance.choice(self.names)} = {self.expression()}")
        elif kind == 2:
            self.lines.append(f"{pad}print({self.expression()}, {self.expression()})")
        elif kind == 3:
            self.lines.append(f"{pad}a, b = {self.expression()}, {self.expression()}")
        elif kind == 4:
            self.lines.append(f"{pad}print({self.expression()} == {self.expression()}, 'x' .. {self.atom()})")
        elif kind == 5:
            self.lines.append(f"{pad}for {name} = {self.chance.randrange(5)}, {self.chance.randrange(9)} do")
            self.names.append(name)
            self.block(depth - 1, indent + 1)
            self.names.remove(name)
            self.lines.append(f"{pad}end")
        elif kind == 6:
            self.lines.append(f"{pad}if {self.expression()} < {self.expression()} then")
            self.block(depth - 1, indent + 1)
            self.lines.append(f"{pad}else")
            self.block(depth - 1, indent + 1)
            self.lines.append(f"{pad}end")
        else:
            self.lines.append(f"{pad}do local n = 0 repeat n = n + 1 if n > {self.chance.randrange(4)} then break end until n >= {self.chance.randrange(1, 6)} print(n) end")

    def text(self):
        self.lines.append("local a, b = 1, 2")
        for number in range(self.chance.randrange(3)):
            self.lines.append(f"local function f{number}(p, q)")
            held, self.names = self.names, ["p", "q", "a", "b"]
            self.lines.append(f"  return {self.expression(1)}")
            self.names = held
            self.lines.append("end")
            self.functions.append(f"f{number}")
        for _ in range(self.chance.randrange(3, 12)):
            self.statement(2, 0)
        return "\n".join(self.lines) + "\n"


def generated_files(chance, count):
    for number in range(count):
        yield f"generated{number}.lua", Program(chance).text().encode()


def main():
    counts = [int(it) for it in sys.argv[1:]] + [20000, 20000, 5000][len(sys.argv) - 1 :]
    chance, lua, program = random.Random(20261201), peer("lua5.3"), tlua()
    seen, faults = {}, []
    with tempfile.TemporaryDirectory() as folder:

        def call(given):
            name, text = given
            file = os.path.join(folder, name)
            with open(file, "wb") as it:
                it.write(text)
            seconds, ran = wall([program, "run", file], 20)
            found = fault(name, ran, seconds)
            if not found and lua and name.startswith("generated") and ran.returncode == 0:
                _, other = wall([lua, file], 20)
                if other and other.returncode == 0 and other.stdout != ran.stdout:
                    found = f"{name}: lua5.3 writes something else"
            if found:
                with open(os.path.join("/tmp", name), "wb") as it:
                    it.write(text)
            os.remove(file)
            return ran and ran.returncode, found

        for what, files in (("random", random_files), ("mutated", mutated_files), ("generated", generated_files)):
            count = counts[["random", "mutated", "generated"].index(what)]
            with ThreadPoolExecutor(os.cpu_count()) as pool:
                for status, found in pool.map(call, files(chance, count)):
                    seen[what, status] = seen.get((what, status), 0) + 1
                    if found:
                        faults.append(found)
    for (what, status), number in sorted(seen.items(), key=str):
        print(f"{what}: status {status}: {number}")
    for it in faults[:20]:
        print(it)
    print(f"{len(faults)} faults")
    return 1 if faults else 0


sys.exit(main())
