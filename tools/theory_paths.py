#!/usr/bin/env python3
"""Names today's places of the theory's theorems: those that moved from crates/theory/specs to its proofs/.

usage: tools/theory_paths.py PATH..    rewrites the `use` lines of each .rt and .antt file at or below PATH
"""

import os
import re
import sys

MOVED = {
    "Store": {"ceiling_at", "ceilings_of", "store_model", "Loose"},
    "Base": set(),
    "InTurn": set(),
    "Demands": {"FirstAbove"},
    "Easier": set(),
    "Drops": {"Plans", "Stands"},
    "Agreement": {"Agree"},
    "Calls": {"IsPlan", "CheapestFirst"},
    "EqualLoads": set(),
    "Batches": {"Adds", "Fresh", "Filled", "Solves", "greedy"},
}
LOOSE = {"passed_loose", "limits_loose"}
USE = re.compile(r"(?m)^((?:ghost )?use )Rattle\.theory\.specs\.(" + "|".join(MOVED) + r")(?:\.\{([^}]*)\})?( as \w+)?(;?)$")


def line(m):
    head, module, names, alias, end = m.groups()
    stays = MOVED[module]
    if names is None:
        return f"{head}Rattle.theory.proofs.{module}{alias or ''}{end}"
    parts = [n.strip() for n in names.split(",") if n.strip()]
    out = []
    for folder, chosen in (("specs", [n for n in parts if n.split(" as ")[0] in stays]), ("proofs", [n for n in parts if n.split(" as ")[0] not in stays])):
        loose = [n for n in chosen if n in LOOSE]
        for place, some in ((module, [n for n in chosen if n not in LOOSE]), ("Loose", loose)):
            if some:
                out.append(f"{head}Rattle.theory.{folder}.{place}.{{{', '.join(some)}}}{end}")
    return "\n".join(out)


for path in sys.argv[1:]:
    for folder, dirs, files in os.walk(path) if os.path.isdir(path) else [(os.path.dirname(path), [], [os.path.basename(path)])]:
        dirs[:] = [d for d in dirs if d != "out"]
        for name in files:
            if name.endswith((".rt", ".antt")):
                p = os.path.join(folder, name)
                with open(p, encoding="utf-8") as f:
                    text = f.read()
                after = USE.sub(line, text)
                if after != text:
                    with open(p, "w", encoding="utf-8") as f:
                        f.write(after)
