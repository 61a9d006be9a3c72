#!/usr/bin/env python3
"""Respells the repository's own definitions and lemmas: words in snake case, types and modules in camel case.

usage: tools/respell.py          at the top, once, right after port.py
       tools/respell.py --list   prints the names and what they become, and changes nothing

It turns every name that a file of specs/ or a lemma file of proofs/ declares (definitions, constructors, fields, lemmas), wherever a .rt or
.antt file says it. Functions of src/, modules and names of the library keep their spelling. Two names that would fall together: the lemma's gets
`_lem`, but for those that SPECIAL names. In comments a name with a dash is turned only in backticks, since English has dashes too.
"""

import collections
import os
import re
import sys

SEP = r"\s(){}\[\];,.:\"→λ≡≤<>+*/%∷×=&|⊢`«»∧¬∀∃^@$#"
TOKEN = re.compile(rf"[^{SEP}]+")
HEAD = re.compile(
    r"^(\s*)(?:(?:abbrev|unfoldable|pub|pattern|axiom)\s+)*(?:(?:data|record)\s+)?((?:[^\s(){}=:;,]+\s+)*?[^\s(){}=:;,]+)((?:\s*(?:\([^()]*\)|\{[^{}]*\}))*)\s*:\s"
)
WORDS = {"use", "let", "in", "where", "module", "record", "if", "then", "else"}
USE = re.compile(r"use\s+(Rattle\.[\w.']+|[\w.']+)\.\{([^}]*)\}")
# Where a field or a constructor would have a definition's name, or a theorem's.
SPECIAL = {
    "for-use": "usable",
    "no-limit": "unlimited",
    "same-tally": "tallies_agree",
    # the same as a definition that no file with them names
    "of-kind": "of_kind",
    "used-up": "used_up",
    "kept-bit": "kept_bit",
}
# Names that port.py gave, which would now have another definition's name: in these files alone, while they have that one's old name.
BEFORE = {
    "crates/changes/proofs/Images.antt": {"room_fields": "room_fields_lem"},
    "crates/profile/proofs/Unlisted.antt": {"in_use": "in_use_lem"},
    "crates/profile/specs/TableCases.antt": {"in_use": "in_use_lem"},
    "crates/profile/proofs/Frames.antt": {"zero_bits": "zero_bits_lem"},
    "crates/profile/specs/RequestCases.antt": {"zero_bits": "zero_bits_lem"},
}
# Constructors and a fact with the wrong capital, by the page that has them: turned on that page and where they are imported from it.
BY_PAGE = {
    "Rattle.profile.specs.Frame": {k: v + "_kind" for k, v in zip(["Setup", "Install", "Retrieve", "Rek", "Enable", "Remove", "Cancel", "List'", "Info"], ["setup", "install", "retrieve", "rek", "enable", "remove", "cancel", "list", "info"])},
    "Rattle.profile.specs.Cases": {"holds": "Hold"},
}


def files(*ends):
    for folder, dirs, names in os.walk("crates"):
        dirs[:] = sorted(d for d in dirs if d != "out")
        for n in sorted(names):
            if n.endswith(ends):
                yield os.path.join(folder, n)


def in_function_folder(path):
    return "/proofs/" in path and path.split("/proofs/")[1].count("/") > 0


def text_of(path):
    with open(path, encoding="utf-8") as f:
        return f.read()


def declared():
    names = collections.OrderedDict()
    for p in files(".antt"):
        if in_function_folder(p):
            continue
        for line in text_of(p).split("\n"):
            m = HEAD.match(line)
            if line.lstrip().startswith("--") or not m or len(m[1]) > 12:
                continue
            ns = m[2].split()
            if not any(n in WORDS for n in ns):
                for n in ns:
                    names.setdefault(n, set()).add(p)
    return names


def snake(name):
    split = re.sub(r"(?<=[a-z0-9'])(?=[A-Z])|(?<=[A-Z])(?=[A-Z][a-z])", "_", name).replace("-", "_")
    return split if name[0].isupper() else split.lower()


def table():
    names = declared()
    to = {}
    for n in names:
        if "-" in n.strip("-") or (re.search(r"[a-z0-9'][A-Z]", n) and not n[0].isupper()):
            to[n] = SPECIAL.get(n) or snake(n)
    taken = collections.Counter(to.values())
    for n, new in to.items():
        if "-" in n and n not in SPECIAL and (taken[new] > 1 or new in names and clash(n, new)):
            to[n] = new + "_lem"
    again = collections.Counter(to.values())
    said = [n for n, k in again.items() if k > 1 and n not in SPECIAL.values()]
    assert not said, said
    return to


def clash(old, new):
    """Whether a file that says the old name has the new one already."""
    for p in files(".antt"):
        if not in_function_folder(p):
            t = set(TOKEN.findall(without_comments(text_of(p))))
            if old in t and new in t:
                return True
    return False


def without_comments(text):
    return re.sub(r"(?m)^\s*--.*$|\s--\s.*$", "", text)


def library_names(text):
    """What a file imports from elsewhere than the repository's own crates."""
    own = {d for d in os.listdir("crates")}
    said = set()
    for m in USE.finditer(text):
        parts = m[1].split(".")
        if parts[0] != "Rattle" or parts[1] not in own:
            said.update(x.strip().split(" as ")[0] for x in m[2].split(","))
    return said


def page_of(path):
    return "Rattle." + path[len("crates/") : -len(".antt")].replace("/", ".")


def turn(path, to):
    text = text_of(path)
    mark = "--" if path.endswith(".antt") else "//"
    mine = dict(to)
    for n in library_names(text):
        mine.pop(n, None)
    had = {to[w]: 1 for w in TOKEN.findall(without_comments(text)) if w in to}
    mine.update({n: new for n, new in BEFORE.get(path, {}).items() if n in had})
    bare = {}
    if path.endswith(".antt"):
        for page, names in BY_PAGE.items():
            for m in USE.finditer(text):
                if m[1] == page:
                    for x in m[2].split(","):
                        if x.strip() in names:
                            bare[x.strip()] = names[x.strip()]
            if page_of(path) == page:
                bare.update(names)

    def word(m):
        w = m[0]
        if w in mine:
            return mine[w]
        if w in bare and not (m.start() and m.string[m.start() - 1] == "."):
            return bare[w]
        return w

    def comment(c):
        c = re.sub(r"`[^`]*`", lambda m: TOKEN.sub(word, m[0]), c)
        return TOKEN.sub(lambda m: mine[m[0]] if m[0] in mine and "-" not in m[0] and re.search("[a-z0-9][A-Z]", m[0]) else m[0], c)

    out = []
    for line in text.split("\n"):
        at = comment_at(line, mark)
        code, rest = (line, "") if at < 0 else (line[:at], line[at:])
        parts = re.split(r'("(?:[^"\\\\]|\\\\.)*")', code)
        out.append("".join(x if i % 2 else TOKEN.sub(word, x) for i, x in enumerate(parts)) + comment(rest))
    new = "\n".join(out)
    if new != text:
        with open(path, "w", encoding="utf-8") as f:
            f.write(new)
        return 1
    return 0


def comment_at(line, mark):
    """Where a line's comment begins, outside strings, or -1."""
    inside = False
    for i, ch in enumerate(line):
        if ch == '"' and line[i - 1 : i] != "\\":
            inside = not inside
        elif not inside and line.startswith(mark, i) and (mark == "//" or i == 0 or line[i - 1] == " "):
            return i
    return -1


def main(argv):
    to = table()
    if argv == ["--list"]:
        print("\n".join(f"{a} {b}" for a, b in sorted(to.items())))
        return 0
    if argv:
        print(__doc__)
        return 2
    n = sum(turn(p, to) for p in files(".antt", ".rt"))
    print(f"respell: {len(to)} names, {n} files changed")
    return 0


if __name__ == "__main__":
    raise SystemExit(main(sys.argv[1:]))
