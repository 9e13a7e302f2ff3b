#!/usr/bin/env python3
"""Spells the repository's own names as today's Rattle does: definitions and lemmas in snake case.

usage: tools/respell.py [TABLE]     at the top of the repository, after the kit's port.py and before any edit by hand

TABLE, respell.tsv beside this script, has a row for each name: old, a tab, new; a third column limits it to paths that begin so. It goes
by whole words, and turns nothing in strings, nor in prose but in code spans, headings of a file's definitions among them.
"""

import os
import re
import sys

WORD = re.compile(r"[^\s:(){}.;,@\"«»\[\]|λ`]+")
QUIET = re.compile(r'"(?:[^"\\\n]|\\.)*"|(?:(?<=\s)|^)(?:--|//)[^\n]*', re.M)
SPAN = re.compile(r"`[^`\n]+`")


def rows(path):
    everywhere, limited = {}, []
    with open(path, encoding="utf-8") as f:
        for line in f:
            old, new, *where = line.rstrip("\n").split("\t")
            if where:
                limited.append((where[0], old, new))
            else:
                everywhere[old] = new
    return everywhere, limited


def turned(text, table):
    def word(m):
        return table.get(m.group(0), m.group(0))

    def spans(comment):
        return SPAN.sub(lambda s: WORD.sub(word, s.group(0)), comment)

    out, at = [], 0
    for m in QUIET.finditer(text):
        out.append(WORD.sub(word, text[at : m.start()]))
        quiet = m.group(0)
        out.append(quiet if quiet.startswith('"') else spans(quiet))
        at = m.end()
    out.append(WORD.sub(word, text[at:]))
    return "".join(out)


def main(argv):
    table = argv[0] if argv else os.path.join(os.path.dirname(os.path.realpath(__file__)), "respell.tsv")
    everywhere, limited = rows(table)
    changed = 0
    for top in ("crates",):
        for folder, dirs, files in os.walk(top):
            dirs[:] = sorted(d for d in dirs if d != "out")
            for name in sorted(files):
                if not name.endswith((".antt", ".rt")):
                    continue
                path = os.path.join(folder, name)
                own = dict(everywhere)
                own.update({old: new for where, old, new in limited if path.startswith(where)})
                with open(path, encoding="utf-8") as f:
                    text = f.read()
                after = turned(text, own)
                if after != text:
                    changed += 1
                    with open(path, "w", encoding="utf-8") as f:
                        f.write(after)
    print(f"respell: {changed} files")


if __name__ == "__main__":
    main(sys.argv[1:])
