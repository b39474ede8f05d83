#!/usr/bin/env python3
"""Respells this repository's own definitions, lemmas, constructors and ghost fields, once.

Words go into snake case and types into camel case: `base-of` becomes `base_of`, `Missing-count` becomes `MissingCount`.
Goals, invariants and steps of a function's proof, which the check names, keep their hyphens, and so do the library's names.
Comments, strings, and the names of functions, clauses and modules stay. Run it at the top of the repository, after the kit's port.py.
"""

import collections
import os
import re
import sys

TOKEN = re.compile(r"[A-Za-z_][A-Za-z0-9_']*(?:-[A-Za-z0-9_']+)*")
NAME = r"([A-Za-z_][A-Za-z0-9_']*(?:-[A-Za-z0-9_']+)+)"
DEFINES = re.compile(r"\s*(?:(?:(?:abbrev|pub) )*(?:data|record) " + NAME + r"\b|(?:(?:abbrev|pub) )*" + NAME + r"(?:\s*(?:\([^()]*\)|\{[^{}]*\}))*\s*:)")
SKIPPED = re.compile(r'--.*|//.*|"(?:[^"\\]|\\.)*"')
# Variables and helpers of proofs that no line defines by a type.
LOCAL = """is-put size-here step-here true-file e-leaves rejects-it not-open not-admit not-withdraw not-make not-largest not-gaps
v-is zero-on loads-is sizes-is front-is rest-is zero-low others-left now-u numbers-long under-least same-long""".split()
# Names whose first word the library has renamed, or that would fall together with a function of src/.
OTHERWISE = {"getD-more-le": "get_or_more_le", "lower-load": "lesser_load", "lower-entry": "lesser_entry"}


def files(ending):
    for folder, folders, names in sorted(os.walk("crates")):
        folders[:] = sorted(f for f in folders if f != "out")
        for name in sorted(names):
            if name.endswith(ending):
                yield os.path.join(folder, name)


def is_lemma_file(path):
    return re.search(r"/(specs|proofs)/[^/]+\.antt$", path) is not None


def respelled(name):
    if name in OTHERWISE:
        return OTHERWISE[name]
    words = name.split("-")
    if words[0][0].isupper():
        return words[0] + "".join(w[0].upper() + w[1:] for w in words[1:])
    return "_".join(words)


def own_names():
    found = set(LOCAL)
    for path in files(".antt"):
        if is_lemma_file(path):
            for line in open(path, encoding="utf-8"):
                m = DEFINES.match(SKIPPED.sub("", line))
                if m:
                    found.add(m.group(1) or m.group(2))
    return {name: respelled(name) for name in found}


def turned(text, names, comments):
    """The text with each own name respelled, outside of comments and strings."""
    out, at = [], 0
    for m in comments.finditer(text):
        out.append(TOKEN.sub(lambda t: names.get(t.group(), t.group()), text[at:m.start()]))
        out.append(m.group())
        at = m.end()
    out.append(TOKEN.sub(lambda t: names.get(t.group(), t.group()), text[at:]))
    return "".join(out)


def clashes(names):
    seen = collections.Counter()
    for path in [*files(".antt"), *files(".rt")]:
        comments = re.compile(r"--.*") if path.endswith(".antt") else SKIPPED
        seen.update(TOKEN.findall(comments.sub("", open(path, encoding="utf-8").read())))
    apart = collections.Counter(names.values())
    return sorted(new for new in apart if apart[new] > 1 or new in seen)


def main():
    names = own_names()
    for name in clashes(names):
        print(f"look: {name} stands twice", file=sys.stderr)
    if "--dry" in sys.argv:
        print(len(names))
        return
    for ending, comments in ((".antt", re.compile(r"--.*")), (".rt", re.compile(r'//.*|"(?:[^"\\]|\\.)*"')), (".edit", re.compile(r"(?m)^file:.*$"))):
        for path in files(ending):
            old = open(path, encoding="utf-8").read()
            new = turned(old, names, comments)
            if new != old:
                open(path, "w", encoding="utf-8").write(new)


if __name__ == "__main__":
    main()
