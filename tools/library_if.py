#!/usr/bin/env python3
"""Takes the library's `if◌then◌else◌` in place of the profile's own, which said the same; the name may stand for nothing else today.

usage: tools/library_if.py       at the top, once, after respell.py
"""

import os
import re

NAME = "if◌then◌else◌"
OWN = re.compile(r"((?:ghost )?use Rattle\.profile\.specs\.Bytes\.)\{([^}]*)\}(;?)")
PRELUDE = re.compile(r"((?:ghost )?use Rattle\.std\.specs\.Prelude\.)\{([^}]*)\}")


def turn(text, rt):
    m = OWN.search(text)
    if not m:
        return text
    names = [x.strip() for x in m[2].split(",")]
    if NAME not in names:
        return text
    names.remove(NAME)
    own = f"{m[1]}{{{', '.join(names)}}}{m[3]}" if names else ""
    p = PRELUDE.search(text)
    if p:
        text = text[: m.start()] + (own + text[m.end() :] if own else text[m.end() + 1 :])
        p = PRELUDE.search(text)
        return text[: p.start()] + f"{p[1]}{{{p[2]}, {NAME}}}" + text[p.end() :]
    line = f"{'ghost use' if rt else 'use'} Rattle.std.specs.Prelude.{{{NAME}}}{m[3]}"
    return text[: m.start()] + line + ("\n" + own if own else "") + text[m.end() :]


for folder, dirs, files in os.walk("crates"):
    dirs[:] = [d for d in dirs if d != "out"]
    for f in files:
        if f.endswith((".rt", ".antt")):
            p = os.path.join(folder, f)
            with open(p, encoding="utf-8") as it:
                old = it.read()
            new = turn(old, f.endswith(".rt"))
            if p == "crates/profile/specs/Bytes.antt":
                new = re.sub(r"module _ \{ℓ\} \{A : Type ℓ\} where\n  infixr 5 if◌then◌else◌\n  -- a choice by a test\n  abbrev pub if◌then◌else◌ [^\n]*\n[^\n]*\n[^\n]*\n\n", "", new, count=1)
                q = PRELUDE.search(new)
                new = new[: q.start()] + f"{q[1]}{{{q[2]}, {NAME}}}" + new[q.end() :]
            if new != old:
                with open(p, "w", encoding="utf-8") as it:
                    it.write(new)
