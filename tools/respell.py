#!/usr/bin/env python3
"""Respells the repository's own definitions and lemmas: types and facts in upper camel case, everything else in snake case.

usage: python3 tools/respell.py [--list]     at the top of a repository that Rattle's port.py has turned

It reads which names the .antt files of specs/ and proofs/ define (definitions, records with their fields, data with
their constructors, helpers of a `where`), and writes their new spelling wherever they stand in .antt files and in the
clauses of .rt files. Functions of src/, strings, comments of the code and what Rattle names itself (`loop-i-preserved`)
stay. `--list` prints the names and writes nothing.
"""

import glob
import re
import sys

WORD = r"[^\s(){}\[\];,.:|\"«»]+"
# a definition at the left margin or in a `where`: name, parameters, colon, type
DEFINED = re.compile(rf"(?m)^(?P<indent> *)(?P<marks>(?:abbrev |unfoldable |pub |record |data )*)(?P<name>{WORD})(?P<params>(?: [({{].*?)?) : (?P<type>.*)$")
MADE = re.compile(r"^(?:goal|Given|Goals)\.")
KEPT = {"use", "open", "let", "in", "where", "record", "data", "module", "elim", "λ", "→"}
# where the plain rule would give a name that is taken
CHOSEN = {"has-control": "control_within", "quote-at": "quote_index"}


def is_type(marks, what):
    return "record" in marks or "data" in marks or bool(re.search(r"(^|→ )Type 0( where)?$", what.strip()))


def camel(name):
    return "".join(part[:1].upper() + part[1:] for part in re.split(r"[-_]", name))


def snake(name):
    return name.replace("-", "_")


def spelled(name, marks, what):
    if name in CHOSEN:
        return CHOSEN[name]
    if is_type(marks, what) and re.fullmatch(r"[A-Za-z0-9_'-]+", name):
        return camel(name)
    return snake(name) if re.fullmatch(r"[A-Za-z0-9_'≤-]+", name) else name


def sources(pattern):
    return sorted(p for p in glob.glob(pattern, recursive=True) if "/out/" not in p)


def antt():
    return sources("crates/*/specs/**/*.antt") + sources("crates/*/proofs/**/*.antt")


def code(text):
    """The text with comments blanked, so that no definition is found in one."""
    return re.sub(r"(?m)(^|\s)--.*$", r"\1", text)


def found():
    names = {}
    for path in antt():
        with open(path, encoding="utf-8") as f:
            text = code(f.read())
        for m in DEFINED.finditer(text):
            name, what = m["name"], m["type"]
            if MADE.match(what.strip()) or name in KEPT or name.startswith(("invariant-", "decreases-")):
                continue
            new = spelled(name, m["marks"], what)
            if new != name:
                names.setdefault(name, {}).setdefault(new, []).append(path)
    return names


def turned_word(names):
    return lambda m: names.get(m[0], m[0])


def turn_antt(text, names):
    return re.sub(WORD, turned_word(names), text)


def turn_rt(text, names):
    """Only ghost lines and clauses: from a line that begins one to the line on which its braces close."""
    out, depth, inside = [], 0, False
    for line in text.split("\n"):
        if not inside and re.match(r"\s*(?:ghost\b|requires\b|ensures\b|pub ghost\b|invariant\b)", line):
            inside, depth = True, 0
        if inside:
            line = re.sub(WORD, turned_word(names), line)
            depth += line.count("{") - line.count("}")
            inside = depth > 0
        out.append(line)
    return "\n".join(out)


def main():
    names = {}
    for name, news in found().items():
        if len(news) > 1:
            print(f"two spellings, left: {name} {news}", file=sys.stderr)
            continue
        names[name] = next(iter(news))
    if "--list" in sys.argv:
        for name in sorted(names):
            print(name, names[name])
        return
    for path, turn in [(p, turn_antt) for p in antt()] + [(p, turn_rt) for p in sources("crates/*/src/**/*.rt")]:
        with open(path, encoding="utf-8") as f:
            text = f.read()
        new = turn(text, names)
        if new != text:
            with open(path, "w", encoding="utf-8") as f:
                f.write(new)


if __name__ == "__main__":
    main()
