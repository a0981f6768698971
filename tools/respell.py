#!/usr/bin/env python3
"""Respells the repository's own definitions and lemmas as today's Rattle has them: types in camel case, all else in snake case.

usage: python3 tools/respell.py      once, at the top, right after the kit's port.py and before any edit by hand
       python3 tools/respell.py --look      changes nothing, and says which names would change and which would fall together

A name is one of ours if a file of specs/ or proofs/ declares it; names of goals, which Rattle makes, and those of std stay.
Turned are the .antt files, what clauses and ghost items of .rt files say, and names between backticks in README.md and docs/.
Rust's own names, strings, inputs, outputs and must-fail edits stay.
"""

import collections
import os
import re
import sys

DECLARES = re.compile(r"^\s*(?:(?:abbrev|opaque|unfoldable|pub)\s+)*(?:(?:record|data)\s+)?([^\s:(){},.=|λ→]+)(?:\s+[({][^=]*?[)}])*\s*:(?=\s|$)")
TOKEN = re.compile(r"[^\s(){}\[\].,;:|λ`⌜⌝]+")
CLAUSE = re.compile(r"\b(?:requires|ensures)\*?(?:\s+\w+)?\s*\{|\bghost\s+(?!use\b)\w+\s*[:=]\s*\{")
GHOST_USE = re.compile(r"\bghost\s+use\b[^;]*;")
NOT_DECLARED = ("use", "let", "in", "where", "module", "open")


def files(ending, *tops):
    for top in tops:
        if os.path.isfile(top):
            yield top
        for folder, dirs, names in os.walk(top):
            dirs[:] = sorted(d for d in dirs if d not in ("out", "target", ".git"))
            for name in sorted(names):
                if name.endswith(ending):
                    yield os.path.join(folder, name)


def text_of(path):
    with open(path, encoding="utf-8") as f:
        return f.read()


def declared():
    """Each name that specs/ and proofs/ declare, with the lines that declare it."""
    names = collections.defaultdict(list)
    for path in files(".antt", "crates"):
        for line in text_of(path).split("\n"):
            m = DECLARES.match(line)
            if m and not line.lstrip().startswith("--") and m[1] not in NOT_DECLARED:
                names[m[1]].append((path, line.strip()))
    return names


def respelled(name):
    if not name[0].isupper():
        return name.replace("-", "_")
    first, *rest = name.split("-")
    return first + "".join(word[:1].upper() + word[1:] for word in rest)


def plan():
    names = declared()
    ours = {n for n, lines in names.items() if "-" in n and not any(": goal." in line for _, line in lines)}
    return {n: respelled(n) for n in sorted(ours)}, names


def turned(text, new):
    return TOKEN.sub(lambda m: new.get(m[0], m[0]), text)


def closing(text, at):
    deep = 0
    for k in range(at, len(text)):
        deep += (text[k] == "{") - (text[k] == "}")
        if not deep:
            return k + 1
    return len(text)


def turned_source(text, new):
    """Of a .rt file, ghost imports, clauses and ghost items alone."""
    spans = [m.span() for m in GHOST_USE.finditer(text)]
    spans += [(m.end() - 1, closing(text, m.end() - 1)) for m in CLAUSE.finditer(text)]
    out, at = [], 0
    for start, end in sorted(spans):
        if start < at:
            continue
        out += [text[at:start], turned(text[start:end], new)]
        at = end
    return "".join(out) + text[at:]


def turned_page(text, new):
    return re.sub(r"`[^`\n]*`", lambda m: turned(m[0], new), text)


def look(new, names):
    by_new = collections.defaultdict(list)
    for old, word in new.items():
        by_new[word].append(old)
    for word, olds in sorted(by_new.items()):
        if len(olds) > 1 or word in names:
            print(f"falls together: {word}: {' '.join(olds)}" + (" and itself" if word in names else ""))
    for path in files(".antt", "crates"):
        tokens = set(TOKEN.findall(text_of(path)))
        for old, word in new.items():
            if old in tokens and word in tokens:
                print(f"both in {path}: {old} {word}")
    for path in files(".rt", "crates"):
        text = text_of(path)
        cited = turned_source(text, {old: "\0" + old for old in new})
        for old in sorted(set(re.findall(r"\0([^\s(){}\[\].,;:|]+)", cited))):
            if re.search(rf"\b{re.escape(new[old])}\b\s*(?::|,)", text):
                print(f"a name of the source too in {path}: {new[old]}")


def main(argv):
    new, names = plan()
    if argv == ["--look"]:
        for old, word in new.items():
            print(f"{old} -> {word}")
        look(new, names)
        return 0
    if argv:
        print(__doc__)
        return 2
    for ending, tops, turn in ((".antt", ["crates"], turned), (".rt", ["crates"], turned_source), (".md", ["README.md", "docs"], turned_page)):
        for path in files(ending, *tops):
            old = text_of(path)
            text = turn(old, new)
            if text != old:
                with open(path, "w", encoding="utf-8") as f:
                    f.write(text)
    print(f"respell: {len(new)} names")
    return 0


if __name__ == "__main__":
    sys.exit(main(sys.argv[1:]))
