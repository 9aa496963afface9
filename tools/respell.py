#!/usr/bin/env python3
"""Respells the repository's own definitions and lemmas as today's Rattle spells its own.

Run once at the top, after /opt/rattle/port/port.py: words in snake case, types, theorems and modules in camel case.
`acceptsState` becomes `accepts_state`, `checked-writes` becomes `checked_writes`, `Runs-lawful` becomes `RunsLawful`.
A name of std, a name that the checker generates, a function of src/, a string, an input and an output keep theirs.
"""
import collections
import glob
import re
import sys

TOKEN = r"[A-Za-z_][A-Za-z0-9_'′-]*"

# A lemma whose new name would be that of a definition or an operation that it is about.
APART = {
    "bit-and": "bit_and_is",
    "bit-or": "bit_or_is",
    "bit-xor": "bit_xor_is",
    "accepts-by-number": "accepts_by_number_right",
    "first-number": "first_number_read",
    "leg-down": "leg_down_is",
    "leg-up": "leg_up_is",
    "zone-sound": "zone_sound_is",
    "zones-sound": "zones_sound_is",
}

# Words that the gate reads as tactics in specs/.
TACTICS = {"ground": "ground_of"}


def odd(name):
    return "-" in name or "′" in name or re.match(r"[a-z].*[A-Z]", name)


def respelled(name):
    if name in APART:
        return APART[name]
    name = name.replace("′", "'")
    if name[0].isupper():
        return "".join(part[:1].upper() + part[1:] for part in name.split("-"))
    name = name.replace("-", "_")
    return re.sub(r"(?<=[a-z0-9])[A-Z]", lambda m: "_" + m.group(0).lower(), name)


def lemma_files():
    return sorted(glob.glob("crates/*/specs/*.antt") + glob.glob("crates/*/proofs/*.antt"))


def declared():
    """Names that specs/ and the lemma files declare, fields and local names of those files included."""
    names = collections.defaultdict(set)
    for path in lemma_files():
        text = open(path).read()
        library = imported(text)
        for line in text.split("\n"):
            code = without_comment(line)
            found = re.findall(r"^(?:abbrev |pub |record |data |module |macro )*(" + TOKEN + r") (?:[^:=]*)?:", code)
            found += re.findall(r"^\s+(?:pub )?(" + TOKEN + r") :", code)
            found += re.findall(r"\blet (" + TOKEN + r")\b", code)
            found += re.findall(r"[({](" + TOKEN + r"(?: " + TOKEN + r")*) :", code)
            for bound in re.findall(r"λ ([^.]*)\.", code):
                found += re.findall(TOKEN, bound)
            # the variables of a clause's left side
            clause = re.match(r"^" + TOKEN + r" ([^=:]*)=", code)
            if clause:
                found += re.findall(TOKEN, clause.group(1))
            for name in " ".join(found).split(" "):
                if name and odd(name) and name not in library:
                    names[name].add(path)
    return names


def imported(text):
    """Names that a file takes from std, under the names that it gives them."""
    names = set()
    for path, items in re.findall(r"use ([A-Za-z.·_'+-]+)\.\{([^}]*)\}", text):
        if not own_path(path):
            names |= {item.strip().split(" as ")[0] for item in items.split(",")}
    return names


def own_path(path):
    crates = {crate.split("/")[1] for crate in glob.glob("crates/*")}
    parts = path.split(".")
    return parts[0] == "Rattle" and parts[1] in crates and "declared" not in parts


def without_comment(line):
    return re.sub(r"(^|\s)--( .*)?$", "", line)


def split_code(line, mark):
    """The code of a line and its comment."""
    at = re.search(r"(^|(?<=\s))" + mark + r"( |$)", line)
    return (line, "") if not at else (line[: at.start()], line[at.start():])


def in_ticks(text, change):
    return re.sub(r"`[^`]*`", lambda m: re.sub(TOKEN, change, m.group(0)), text)


def main():
    names = declared()
    fresh = collections.defaultdict(set)
    plain = set()
    for path in lemma_files():
        plain |= set(re.findall(TOKEN, open(path).read()))
    for name in names:
        fresh[respelled(name)].add(name)
    for new, olds in sorted(fresh.items()):
        if len(olds) > 1 or new in plain:
            print("fall together:", new, sorted(olds), "(also as it stands)" if new in plain else "", file=sys.stderr)
    changed = 0
    files = glob.glob("crates/*/specs/**/*.antt", recursive=True) + glob.glob("crates/*/proofs/**/*.antt", recursive=True)
    files += glob.glob("crates/*/src/**/*.rt", recursive=True) + glob.glob("docs/*.md") + ["README.md"]
    for path in sorted(files):
        text = open(path).read()
        library = imported(text)
        local = path.count("/") > 3 and "/proofs/" in path

        aliases = set(re.findall(r" as (" + TOKEN + r")[,}]", text)) if not path.endswith(".md") else set()

        def change(m):
            name = m.group(0)
            if name in TACTICS and path.endswith(".antt"):
                return TACTICS[name]
            if name in aliases and odd(name):
                return respelled(name)
            if name not in names or name in library:
                return name
            if local and not GLOBAL(name):
                return name
            return respelled(name)

        def GLOBAL(name):
            return name in TOPS

        lines = []
        for line in text.split("\n"):
            if path.endswith(".md"):
                lines.append(in_ticks(line, change))
            else:
                code, comment = split_code(line, "--" if path.endswith(".antt") else "//")
                parts = re.split(r'("(?:\\.|[^"\\])*")', code) if path.endswith(".rt") else [code]
                code = "".join(p if p.startswith('"') else re.sub(TOKEN, change, p) for p in parts)
                lines.append(code + in_ticks(comment, change))
        new = "\n".join(lines)
        if new != text:
            open(path, "w").write(new)
            changed += 1
    print(f"{len(names)} names, {changed} files")


def tops():
    """Names that a module declares, which another file can name; a function's own proof files keep the rest."""
    names = set()
    for path in lemma_files():
        for line in open(path).read().split("\n"):
            code = without_comment(line)
            names |= set(re.findall(r"^(?:abbrev |pub |record |data )*(" + TOKEN + r") (?:[^:=]*)?:", code))
            names |= set(re.findall(r"^\s+(?:pub )(" + TOKEN + r") :", code))
    return names


TOPS = tops()
main()
