#!/usr/bin/env python3
"""Spells this repository's own definitions and lemmas as today's Rattle does: usage: tools/respell/respell.py [FOLDER]

names.tsv beside this file has a row for each name, old and new. Whole words turn, in the code of .antt files, in the clauses
and ghost items of .rt files, in must-fail edits and in the code spans of pages. Comments, strings and what Rattle names
itself (behind 'goal.') stay. It was run once, right after the kit's own script.
"""

import os
import re
import sys

HERE = os.path.dirname(os.path.realpath(__file__))
WORD = re.compile(r'[^\s(){}.;,@"«»`]+')
ANTT = re.compile(r'"(?:\\.|[^"\\\n])*"|(?<![^\s(){}.;,@"«»])--[^\n]*|[^\s(){}.;,@"«»]+|.', re.S)
RUST = re.compile(r'//[^\n]*|b?"(?:\\.|[^"\\])*"|[^\s(){}.;,@"«»/]+|.', re.S)


def rows():
    with open(os.path.join(HERE, "names.tsv"), encoding="utf-8") as f:
        return dict(line.rstrip("\n").split("\t") for line in f)


def turned(names, text, tokens):
    out, behind = [], ""
    for m in tokens.finditer(text):
        token = m[0]
        # behind 'goal.' stand the names that Rattle makes
        if token in names and not behind.endswith("goal."):
            token = names[token]
        out.append(token)
        behind = (behind + m[0])[-8:]
    return "".join(out)


def spans(names, text):
    return re.sub(r"`[^`\n]*`", lambda m: WORD.sub(lambda w: names.get(w[0], w[0]), m[0]), text)


def edit(names, text):
    return "\n".join(
        turned(names, line, RUST) if line.startswith(("old:", "new:")) else line for line in text.split("\n")
    )


def main(top):
    names = rows()
    for folder, dirs, files in os.walk(top):
        dirs[:] = [d for d in dirs if d not in (".git", "out", "target")]
        for name in files:
            path = os.path.join(folder, name)
            way = {
                ".antt": lambda t: turned(names, t, ANTT),
                ".rt": lambda t: turned(names, t, RUST),
                ".edit": lambda t: edit(names, t),
                ".md": lambda t: spans(names, t),
            }.get(os.path.splitext(name)[1])
            if way is None:
                continue
            with open(path, encoding="utf-8") as f:
                old = f.read()
            new = way(old)
            if new != old:
                with open(path, "w", encoding="utf-8") as f:
                    f.write(new)


if __name__ == "__main__":
    main(sys.argv[1] if len(sys.argv) > 1 else ".")
