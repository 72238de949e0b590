#!/usr/bin/env python3
"""Brings the repository's own definitions, record fields and lemmas to snake case: a dash in a name becomes an underscore.

usage: python3 tools/snake_case.py [ROOT]

Run it once, at the top. It goes by text over crates/: in .antt files all but comments, in .rt files all but comments and strings.
Names of goals (declared with the type `goal.NAME`) and names that a file imports from a library keep their spelling, and so do
functions of src/. It prints each name that it changes, and stops without a change where two names would fall together.
"""
import os
import re
import sys

ROOT = sys.argv[1] if len(sys.argv) > 1 else "."
TOKEN = re.compile(r"[^\s(){}\[\],;.\"\\λ]+")
DECLARED = re.compile(r"^ *(?:(?:pub|abbrev|unfoldable|record|data|ruleset)\s+)*([^\s:(){}.,;]+)\s*(?:[({].*)?:(?!=)\s", re.M)
FIELD = re.compile(r"^\s+(?:pub\s+)?([^\s:(){}.,;]+)\s*:\s", re.M)
ALIAS = re.compile(r" as ([^\s(){}.,;]+)")
# names that would else be those of a function or a module of src/
OTHER = {"last-outage": "outage_of_last", "outage-rate": "forced_outage_rate", "within-limit": "all_within_limit"}
IMPORT = re.compile(r"^\s*(?:ghost |pub )*use\s+([\w.]+)\.\{([^}]*)\}", re.M)


def files(ending):
    for at, dirs, names in os.walk(os.path.join(ROOT, "crates")):
        dirs[:] = sorted(d for d in dirs if d not in ("out", "target"))
        for name in sorted(names):
            if name.endswith(ending):
                yield os.path.join(at, name)


def read(path):
    with open(path, encoding="utf-8") as f:
        return f.read()


def bare(path, text):
    """The text with comments, and in code strings, blanked out place by place."""
    if path.endswith(".antt"):
        return re.sub(r"(^|(?<=\s))--.*", lambda m: " " * len(m.group()), text)
    return re.sub(r'b?"(?:[^"\\]|\\.)*"|//.*', lambda m: " " * len(m.group()), text)


def own_names():
    names, fields, every = set(), set(), set()
    for path in files(".antt"):
        text = bare(path, read(path))
        every.update(TOKEN.findall(text))
        for m in IMPORT.finditer(text):
            names.update(ALIAS.findall(m.group(2)))
        for m in DECLARED.finditer(text):
            rest = text[m.end():m.end() + 40].strip()
            if not rest.startswith("goal."):
                names.add(m.group(1))
        in_record = False
        for line in text.split("\n"):
            if re.match(r"(pub )?record\b", line):
                in_record = True
            elif line and not line.startswith(" "):
                in_record = False
            m = FIELD.match(line)
            if in_record and m:
                fields.add(m.group(1))
    for path in files(".rt"):
        for line in bare(path, read(path)).split("\n"):
            if "ghost use" in line:
                names.update(ALIAS.findall(line))
    return {n for n in names if "-" in n}, {n for n in fields if "-" in n}, every


def imported(text):
    """What a file imports from a library that is not of this repository."""
    own = set(os.listdir(os.path.join(ROOT, "crates")))
    found = set()
    for m in IMPORT.finditer(text):
        parts = m.group(1).split(".")
        if not (parts[0] == "Rattle" and len(parts) > 1 and parts[1] in own):
            found.update(TOKEN.findall(m.group(2)))
    return found


def main():
    names, fields, every = own_names()
    new = {n: OTHER.get(n, n.replace("-", "_")) for n in names | fields}
    clash = [(old, n) for old, n in new.items() if n in every]
    if clash:
        print("names that fall together: " + ", ".join(f"{a} and {b}" for a, b in sorted(clash)))
        return 1
    for ending in (".antt", ".rt"):
        for path in files(ending):
            text = read(path)
            plain = bare(path, text)
            kept = imported(plain)
            out, at = [], 0
            for m in TOKEN.finditer(plain):
                word = m.group()
                after_dot = m.start() > 0 and plain[m.start() - 1] == "."
                mine = word in fields if after_dot else word in new
                if mine and word not in kept:
                    out += [text[at:m.start()], new[word]]
                    at = m.end()
            changed = "".join(out) + text[at:]
            if changed != text:
                with open(path, "w", encoding="utf-8") as f:
                    f.write(changed)
    for old in sorted(new):
        print(f"{old} -> {new[old]}")
    return 0


if __name__ == "__main__":
    raise SystemExit(main())
