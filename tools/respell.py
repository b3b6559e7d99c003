"""Brings the names of this repository's definitions and lemmas to today's spelling, by the table respell.txt beside it.

usage: python3 tools/respell.py    at the top of the repository, once, after /opt/rattle/port/port.py

Functions, lemmas and fields become snake case, types and modules camel case. Comments and strings stay, functions of
src/ keep their names, and in the folders proofs/F/ a name behind a dot that may be one that Rattle made stays too.
"""

import glob
import os
import re

HERE = os.path.dirname(os.path.realpath(__file__))
TOKEN = re.compile(r"(?<![\w'′-])[A-Za-z_](?:[\w'′]|-(?=[\w]))*")
LEMMA_ONLY = {"raw_of", "said_at", "two_bytes", "first_key"}


def table():
    with open(os.path.join(HERE, "respell.txt"), encoding="utf-8") as f:
        return dict(line.split() for line in f if not line.startswith("#"))


def kebab_functions():
    """The names of src/ as an older Rattle wrote them in the names that it made."""
    names = set()
    for path in glob.glob("crates/*/src/**/*.rt", recursive=True):
        with open(path, encoding="utf-8") as f:
            names |= {n.replace("_", "-") for n in re.findall(r"\bfn\s+(\w+)", f.read())}
    return names


def antt(text, names, made, functions):
    out = []
    for line in text.split("\n"):
        cut = re.search(r"(?:^|(?<=\s))--(?=\s|$)", line)
        code, rest = (line[: cut.start()], line[cut.start() :]) if cut else (line, "")

        def turn(m):
            name = m.group(0)
            if name not in names:
                return name.replace("′", "'")
            behind_dot = m.start() > 0 and code[m.start() - 1] == "."
            if made and behind_dot and "-" in name and name in functions:
                return name
            return names[name]

        out.append(TOKEN.sub(turn, code) + rest)
    return "\n".join(out)


SKIP = re.compile(r'//[^\n]*|b?"(?:[^"\\]|\\.)*"')


def rust(text, names):
    out, at = [], 0

    def turn(m):
        name = m.group(0)
        if name in LEMMA_ONLY:
            return name
        return names.get(name, name)

    for m in SKIP.finditer(text):
        out.append(TOKEN.sub(turn, text[at : m.start()]))
        out.append(m.group(0))
        at = m.end()
    out.append(TOKEN.sub(turn, text[at:]))
    return "".join(out)


def page(text, names):
    def turn(m):
        return names.get(m.group(0), m.group(0))

    return re.sub(r"`[^`\n]*`", lambda m: TOKEN.sub(turn, m.group(0)), text)


def main():
    names, functions = table(), kebab_functions()
    for path in sorted(glob.glob("crates/**/*", recursive=True) + glob.glob("docs/*.md") + ["README.md"]):
        if "/out/" in path or not path.endswith((".antt", ".rt", ".md")):
            continue
        with open(path, encoding="utf-8") as f:
            before = f.read()
        if path.endswith(".rt"):
            after = rust(before, names)
        elif path.endswith(".antt"):
            parts = path.split("/")
            after = antt(before, names, parts[2] == "proofs" and len(parts) > 4, functions)
        else:
            after = page(before, names)
        if after != before:
            with open(path, "w", encoding="utf-8") as f:
                f.write(after)


main()
