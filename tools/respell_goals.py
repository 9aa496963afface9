#!/usr/bin/env python3
"""Respells the names that the checker generates, in the proof files of functions: a function's name keeps its underscores.

Run after tools/respell.py. `returns-then-not-is-sound` becomes `returns-then-not-is_sound`.
"""
import glob
import re

TOKEN = r"[A-Za-z_][A-Za-z0-9_'-]*"
WORDS = ["in-ok", "in-err", "in-default", "offset-bounds", "type-inv", "well-formed", "from-residual",
         "is-empty", "split-at", "unwrap-or", "saturating-add", "saturating-sub", "is-some", "is-none", "from-net"]
WORDS += ["overflow-" + operation for operation in ("add", "sub", "mul", "shl", "shr", "neg", "cast")]


def words():
    names = set(WORDS)
    for path in glob.glob("crates/*/src/**/*.rt", recursive=True):
        text = re.sub(r"//.*", "", open(path).read())
        for name in re.findall(r"\b[a-z][a-z0-9]*(?:_[a-z0-9]+)+\b", text):
            names.add(name.replace("_", "-"))
    return sorted(names, key=len, reverse=True)


def main():
    pattern = re.compile(r"(?<![A-Za-z0-9_])(" + "|".join(map(re.escape, words())) + r")(?![A-Za-z0-9_])")
    for path in glob.glob("crates/*/proofs/*/**/*.antt", recursive=True):
        text = open(path).read()
        library = set()
        for items in re.findall(r"use (?!Rattle\.[a-z]+\.proofs\.[^{]*(?:Goals|Given))[A-Za-z.·_'+-]+\.\{([^}]*)\}", text):
            library |= {item.strip().split(" as ")[-1] for item in items.split(",")}

        def change(m):
            name = m.group(0)
            if name in library or "-" not in name:
                return name
            return pattern.sub(lambda w: w.group(1).replace("-", "_"), name)

        new = "\n".join(re.sub(TOKEN, change, line) if not line.strip().startswith("--") else line for line in text.split("\n"))
        if new != text:
            open(path, "w").write(new)


main()
