#!/usr/bin/env python3
"""Lists the places in crates/*/src that the page docs/DESIGN-PASS.md counts, point by point.

    python3 tools/places.py [FOLDER] [POINT]

FOLDER is a checkout (default: this one). Each place is printed as file:line: text, and each point ends with its count. What a
pattern finds is a place to look at: the page says of each whether it was changed or is kept, and why.
"""
import glob
import os
import re
import sys

# by point: what is looked for, and the pattern of a line
LINES = {
    1: [
        ("a variant that stands for none", r"^\s*(Other|Bad|Unset|More|Unknown|Nothing)\s*,"),
        ("a flag in a struct", r"^\s*(pub(\(crate\))? )?\w+: bool,"),
        ("a refusal in an Option", r"-> Option<([\w:]*Fault|\(\))>"),
        ("the greatest number for none", r"\bu(8|32|64)::MAX\b"),
        ("a count or a length for none", r"^\s*(self\.count|text\.len\(\))$"),
        ("a number for a refusal", r"^\s*\w*Fault::\w+ => \d+,$|fn refusal\(|fn answer\(.*\(u32|return 255|128 \+ "),
        ("a number for a kind", r"\bcodes?: (u8|&\[u8\])"),
        ("a result that is dropped", r"let _ = "),
    ],
    3: [
        ("a while loop", r"^\s*while "),
        ("a range of indices", r"^\s*for \w+ in .*\.\."),
        ("enumerate", r"\.enumerate\(\)"),
        ("a count by hand", r"^\s*[\w.]+ (\+|-)= 1;|^\s*\w+ = \w+ \+ 1;"),
    ],
    4: [
        ("a test written by hand", r"^\s*(pub(\(crate\))? )?fn (same|held|is_(letter|digit|printed|among|done|task)|takes_task)\b"),
        ("a copy written by hand", r"^\s*array\[i\] = |^\s*operators\[i\] = |^\s*letters\[i\] = "),
        ("a refusal printed by hand", r'println!\(rt; "\(refused'),
    ],
    6: [
        ("an array in a field or a signature", r"(: |-> )(&(mut )?)?\[(\[\w+; \d+\]|[A-Z]\w*|u\d+|bool); \w+\]"),
        ("a length or a place beside memory", r"^\s*(pub )?(count|top|number|head|length): usize,|at: usize"),
    ],
    7: [
        ("an enum of steps", r"^\s*(pub )?enum (State|Scan|Place|Step)\b"),
        ("a function as a value", r"\bfn\(|\bdyn |impl Fn|: Fn(Mut|Once)?\("),
    ],
}
KEYWORDS = set("as break const continue else enum fn for if impl in let loop match mod mut pub return self Self struct trait type use where while true false Some None Ok Err".split())


def sources(root):
    return sorted(glob.glob(os.path.join(root, "crates", "*", "src", "**", "*.rt"), recursive=True))


def code_lines(path):
    for number, line in enumerate(open(path, encoding="utf-8"), 1):
        if not line.lstrip().startswith("//"):
            yield number, line.rstrip("\n")


def functions(path):
    """Name, first line, parameters and body of each function with a body."""
    text = open(path, encoding="utf-8").read()
    for found in re.finditer(r"^( *)(?:pub(?:\(crate\))? )?(?:extern \"C\" )?fn (\w+)", text, re.M):
        indent = found.group(1)
        begin = text.find("\n" + indent + "{\n", found.start())
        same_line = re.compile(r"\{\n").search(text, found.start())
        semicolon = text.find(";\n", found.start())
        if same_line and (begin < 0 or same_line.start() < begin + 1):
            begin = same_line.start() - 1
        if begin < 0 or (0 <= semicolon < begin):
            continue
        end = text.find("\n" + indent + "}", begin)
        yield found.group(2), text.count("\n", 0, found.start()) + 1, text[found.start():begin], text[begin:end]


def shape(body):
    """The body with its names, numbers and strings taken out."""
    body = re.sub(r"//[^\n]*", "", body)
    tokens = re.findall(r"b?\"[^\"]*\"|b?'[^']*'|\w+|[^\s\w]", body)
    return " ".join(t if t in KEYWORDS or not re.match(r"\w|b?[\"']", t) else "_" for t in tokens)


def twins(root):
    seen = {}
    for path in sources(root):
        for name, line, _, body in functions(path):
            key = shape(body)
            if key.count(" ") >= 12:
                seen.setdefault(key, []).append(f"{os.path.relpath(path, root)}:{line}: fn {name}")
    return [places for places in seen.values() if len(places) > 1]


def repeated(root):
    """Clauses, and pairs of parameters, that stand in three functions or more."""
    clauses, pairs = {}, {}
    for path in sources(root):
        for name, line, head, _ in functions(path):
            where = f"{os.path.relpath(path, root)}:{line}: fn {name}"
            for clause in set(re.findall(r"^\s*(?:requires|ensures)[^{]*\{ (.*?) \}\s*$", head, re.M)):
                if not clause.startswith("result ≡"):
                    clauses.setdefault(clause, []).append(where)
            parameters = re.findall(r"\b(\w+): ([^,()]+(?:\([^()]*\))?)", head.split("ensures")[0].split("requires")[0].partition("(")[2])
            for first, second in zip(parameters, parameters[1:]):
                pairs.setdefault(f"{first[0]}: {first[1].strip()}, {second[0]}: {second[1].strip()}", []).append(where)
    return [(k, v) for t in (clauses, pairs) for k, v in sorted(t.items()) if len(v) > 2]


def main():
    root = sys.argv[1] if len(sys.argv) > 1 else os.path.join(os.path.dirname(os.path.abspath(__file__)), "..")
    root = os.path.normpath(root)
    only = int(sys.argv[2]) if len(sys.argv) > 2 else None
    for point in (1, 2, 3, 4, 5, 6, 7):
        if only not in (None, point):
            continue
        count = 0
        print(f"point {point}")
        for what, pattern in LINES.get(point, []):
            places = [f"{os.path.relpath(path, root)}:{number}: {line.strip()}" for path in sources(root) for number, line in code_lines(path) if re.search(pattern, line)]
            count += len(places)
            print(f"  {what}: {len(places)}")
            print("".join(f"    {place}\n" for place in places), end="")
        if point == 2:
            for places in twins(root):
                count += len(places)
                print("  of one shape:\n" + "".join(f"    {place}\n" for place in places), end="")
        if point == 5:
            for what, places in repeated(root):
                count += len(places)
                print(f"  {len(places)} times: {what}\n" + "".join(f"    {place}\n" for place in places), end="")
        print(f"point {point}: {count}")


main()
