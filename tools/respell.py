#!/usr/bin/env python3
"""Gives this repository's own definitions and lemmas the spelling of today's Rattle: words in snake case.

usage: python3 tools/respell.py [ROOT]     once, right after the kit's own script; ROOT is the repository's top

respell.tsv has a line for each name: the old one, a tab, the new one, and for a record's field a tab and the word field. Names of functions in src/, strings, inputs and
outputs stay. In comments and documents only names in camel case are turned, since others read like plain words.
"""

import os
import re
import sys

HERE = os.path.dirname(os.path.realpath(__file__))
WORD = re.compile(r"[A-Za-zℕ_][\wℕ']*(?:-[\wℕ']+)*")
CODE = re.compile(r'//[^\n]*|"(?:\\.|[^"\\])*"|\'(?:\\.|[^\'\\])\'')
SHORT = re.compile(r"(?m)^(?:ghost )?use [\w.]+ as ([a-z]\w*)")
ANTT_COMMENT = re.compile(r"--[^\n]*")


def table():
    with open(os.path.join(HERE, "respell.tsv"), encoding="utf-8") as f:
        rows = [line.rstrip("\n").split("\t") for line in f]
    return {row[0]: row[1] for row in rows}, {row[0] for row in rows if row[2:] == ["field"]}


def is_field(text, at, short):
    """Whether the word at this place follows a dot that is no path's: then it is a step's or a record's name."""
    if at == 0 or text[at - 1] != ".":
        return False
    before = re.search(r"([\w'◌-]+)\.$", text[max(0, at - 200) : at])
    return not (before and (before[1][0].isupper() or before[1] in short))


def turned(text, known, dashes):
    """The text with each name turned; names with dashes only where dashes may be turned."""
    names, fields, short = known

    def one(m):
        word = m[0]
        new = names.get(word)
        if new is None:
            return word
        if "-" in word and (not dashes or (word not in fields and is_field(text, m.start(), short))):
            return word
        return new

    return WORD.sub(one, text)


def by_parts(text, known, skipped):
    """As turned, where comments and strings keep their dashes."""
    out, at = [], 0
    for m in skipped.finditer(text):
        out.append(turned(text[at : m.start()], known, True))
        kept = m[0]
        out.append(turned(kept, known, False) if kept.startswith(("//", "--")) else kept)
        at = m.end()
    out.append(turned(text[at:], known, True))
    return "".join(out)


def files(root):
    for top in ("crates", "docs"):
        for folder, dirs, names in os.walk(os.path.join(root, top)):
            dirs[:] = sorted(d for d in dirs if d != "out")
            for name in sorted(names):
                yield os.path.join(folder, name)
    yield os.path.join(root, "README.md")


def main(root):
    names, fields = table()
    for path in files(root):
        ending = os.path.splitext(path)[1]
        if ending not in (".rt", ".antt", ".edit", ".md"):
            continue
        with open(path, encoding="utf-8") as f:
            text = f.read()
        known = names, fields, set(SHORT.findall(text))
        if ending == ".rt":
            new = by_parts(text, known, CODE)
        elif ending == ".antt":
            new = by_parts(text, known, ANTT_COMMENT)
        else:
            new = turned(text, known, ending == ".edit")
        if new != text:
            with open(path, "w", encoding="utf-8") as f:
                f.write(new)


if __name__ == "__main__":
    main(sys.argv[1] if len(sys.argv) > 1 else ".")
