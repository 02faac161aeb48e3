#!/usr/bin/env python3
"""Spells the repository's own definitions, fields and lemmas in snake case: `hasBit` becomes `has_bit`, `has-laid` becomes `has_laid`.

usage: spell.py [--check] [ROOT]

Run it once, after port.py, at the top. A name is one that a file of specs/ or proofs/ declares, the goals of a Proof.antt left out.
Types, facts and modules keep their capitals; names of the libraries, of Rust items and of generated goals keep theirs. A lemma whose new
spelling would be a definition's ends in _lem (LEMMAS and ALREADY, below). A definition may be spelled like the Rust function that computes
it. Each name whose new spelling stands already in a file that has it is printed; --check writes nothing.
"""

import collections
import os
import re
import sys

WORD = re.compile(r"[^\s(){}.;,@\"«»]+")
DECLARED = re.compile(
    r"(?m)^ *((?:abbrev|pub|unfoldable|opaque) +)*([^\s(){}.;,@\"«»:=λ|]+)((?: [({][^\n:=]*:[^\n=]*[)}])*)? :(?= |$)"
)
QUIET = re.compile(r"--[^\n]*|//[^\n]*|\"(?:[^\"\\\n]|\\.)*\"")
# Lemmas that would have their definition's name.
LEMMAS = (
    "bit-and bit-or environment-of final-by first-plan fluent-of guided-final least-below least-of names-at plan-transitions program-at "
    "read-in replied-as rest-final sees-at sibling-a sizes-number sizes-place uses-a uses-b"
)
OTHERWISE = {it: it.replace("-", "_") + "_lem" for it in LEMMAS.split()}
# The same, of lemmas whose spelling was plain: the end of the file's path, and the name.
ALREADY = {("possible/proofs/Worlds.antt", "said_at"), ("runs/proofs/Firsts.antt", "least_at")}


def files(root):
    for top, folders, names in os.walk(os.path.join(root, "crates")):
        folders[:] = sorted(it for it in folders if it != "out")
        for name in sorted(names):
            if name.endswith((".rt", ".antt")):
                yield os.path.join(top, name)


def read(path):
    with open(path, encoding="utf-8") as f:
        return f.read()


def is_own(name):
    return "-" in name or re.search(r"[a-z0-9'][A-Z]", name) and name[0].islower()


def plain(name):
    words = re.sub(r"(?<=[a-z0-9'])[A-Z]", lambda it: "_" + it[0].lower(), name)
    return words.replace("-", "_")


def declared(texts):
    names = set()
    for path, text in texts.items():
        if path.endswith(".antt") and os.path.basename(path) != "Proof.antt":
            names |= {it[2] for it in DECLARED.finditer(QUIET.sub("", text))}
    return names


def table(texts):
    return {it: OTHERWISE.get(it, plain(it)) for it in declared(texts) if is_own(it)}


def of_libraries(path, text):
    """The names that a file brings from a library that is not of this repository."""
    own = set(os.listdir(path[: path.rindex("/crates/") + 8]))
    names = set()
    for it in re.finditer(r"use ([\w.]+)\.\{([^}]*)\}", text):
        steps = it[1].split(".")
        if steps[0] != "Rattle" or steps[1] not in own:
            names |= set(it[2].replace(",", " ").split())
    return names


def words(text):
    return set(WORD.findall(QUIET.sub(" ", text)))


def meetings(texts, spelled):
    """Each name with the files in which its new spelling stands already, or is another name's."""
    found = collections.defaultdict(set)
    for path, text in texts.items():
        here = words(text)
        news = collections.defaultdict(set)
        for it in here & set(spelled):
            news[spelled[it]].add(it)
        for new, olds in news.items():
            if new in here or len(olds) > 1:
                for it in olds:
                    found[it].add(path)
    return found


def turned(path, text, spelled):
    here = {name: name + "_lem" for end, name in ALREADY if path.endswith(end)}
    here |= {it: it for it in of_libraries(path, text)}

    def code(it):
        if it[0] in here:
            return here[it[0]]
        if it.start() and it.string[it.start() - 1] == ".":
            return plain(it[0]) if it[0] in spelled else it[0]
        return spelled.get(it[0], it[0])

    def quiet(it):
        if it[0].startswith('"'):
            return it[0]
        spans = re.sub(r"`([^`\s]+)`", lambda s: f"`{spelled.get(s[1], s[1])}`", it[0])
        return re.sub(r"(?<![\w-])[a-z]\w*[A-Z]\w*", lambda w: spelled.get(w[0], w[0]), spans)

    parts, at = [], 0
    for it in QUIET.finditer(text):
        parts += [WORD.sub(code, text[at : it.start()]), quiet(it)]
        at = it.end()
    return "".join(parts) + WORD.sub(code, text[at:])


def main(argv):
    check = "--check" in argv
    rest = [it for it in argv if it != "--check"]
    root = rest[0] if rest else "."
    texts = {it: read(it) for it in files(root)}
    spelled = table(texts)
    found = meetings(texts, spelled)
    for name, paths in sorted(found.items()):
        print(f"meets: {name} {spelled[name]}: {' '.join(sorted(os.path.relpath(it, root) for it in paths))}")
    if check:
        print(f"{len(spelled)} names, {len(found)} meet another word")
        return 0
    for path, text in texts.items():
        new = turned(path, text, spelled)
        if new != text:
            with open(path, "w", encoding="utf-8") as f:
                f.write(new)
    print(f"{len(spelled)} names")
    return 0


if __name__ == "__main__":
    raise SystemExit(main(sys.argv[1:]))
