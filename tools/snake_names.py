#!/usr/bin/env python3
"""Brings the repository's own definitions and lemmas to snake case, as the library has them.

usage: python3 tools/snake_names.py        at the top of the repository, once, after port.py

Own is each name with a dash between two letters or digits that a file of crates/*/specs or a law file of crates/*/proofs has, and that
the file does not import from the library. It is renamed there, in the clauses of src/, in the proofs of functions and in the edits. What
Rattle makes for proofs (goals, steps) keeps its dashes. Functions of src/, strings and programs' files are not touched. It stops where
two names would fall together in one file.
"""
import glob
import os
import re
import sys

WORD = re.compile(r"[^\s(){}.;,@\"«»\[\]\\:`]+")
DASH = re.compile(r"(?<=[A-Za-z0-9_'′₀-₉])-(?=[A-Za-z0-9_])")
OWN_CRATES = sorted(os.path.basename(os.path.dirname(os.path.dirname(p))) for p in glob.glob("crates/*/src/"))
OWN_MODULE = re.compile(r"Rattle\.(%s)\.(specs|proofs)\b" % "|".join(OWN_CRATES))
IMPORT = re.compile(r"^\s*(?:pub\s+)?(?:ghost\s+)?use\s+(\S+?)\.\{([^}]*)\}|^\s*(?:pub\s+)?(?:ghost\s+)?use\s+(\S+?)\.([^\s.{};]+)\s*;?\s*$", re.M)
# made by Rattle for a function's proof
MADE = re.compile(r"^(Need|Goal|the|loop|returns|invariant|decreases|overflow|nonzero|bounds|slice_bounds|offset_bounds|in|if|match)-|.*-(requires|spec)$")


def read(path):
    with open(path, encoding="utf-8") as it:
        return it.read()


def is_dashed(word):
    return DASH.search(word) is not None


# names of ours whose snake case is a name of the library that the same files have
OTHER = {"bit-and": "bit_of_and", "bit-or": "bit_of_or", "put-mid": "put_mid_is"}


def snake(word):
    return OTHER.get(word) or DASH.sub("_", word)


def imports(text):
    """The names that a file imports: from the library, and of the repository's own."""
    library, own = set(), set()
    for a, names, b, one in IMPORT.findall(text):
        module = a or b
        to = own if OWN_MODULE.match(module) else library
        for name in (names.split(",") if names else [one]):
            for word in name.split(" as "):
                to.add(word.strip())
    return library, own


def code(text, mark):
    """The text's pieces: (is it a comment, the piece)."""
    out, at = [], 0
    for m in re.finditer(mark + r"[^\n]*", text):
        out.append((False, text[at : m.start()]))
        out.append((True, m.group(0)))
        at = m.end()
    out.append((False, text[at:]))
    return out


def words(text, mark="--"):
    found = set()
    for is_comment, piece in code(text, mark):
        if not is_comment:
            found.update(WORD.findall(piece))
    return found


def turn(text, names, mark):
    def one(m):
        return snake(m.group(0)) if m.group(0) in names else m.group(0)

    out = []
    for is_comment, piece in code(text, mark):
        if is_comment:
            out.append(re.sub(r"`[^`\n]*`", lambda m: WORD.sub(one, m.group(0)), piece))
        else:
            out.append(WORD.sub(one, piece))
    return "".join(out)


def main():
    stated = sorted(glob.glob("crates/*/specs/**/*.antt", recursive=True) + glob.glob("crates/*/proofs/*.antt"))
    proofs = sorted(set(glob.glob("crates/*/proofs/**/*.antt", recursive=True)) - set(stated))
    sources = sorted(glob.glob("crates/*/src/**/*.rt", recursive=True))
    edits = sorted(glob.glob("crates/*/must-fail/*.edit"))
    pages = sorted(glob.glob("docs/*.md") + ["README.md"])
    own, known = set(), set()
    for path in stated:
        text = read(path)
        library, _ = imports(text)
        own |= {w for w in words(text) if is_dashed(w) and w not in library}
        known |= words(text) - library
    changed = 0
    for path in stated + proofs + sources + edits + pages:
        text = read(path)
        library, mine = imports(text)
        names = own - library
        if path in proofs:
            # a step or a goal may be spelled as a name of ours: only what is imported, or a field, is ours
            fields = {w for w in re.findall(r"\.([^\s(){}.;,@\"«»\[\]\\:`]+)", text)}
            sites = {w for w in re.findall(r"(?:^|[{;])\s*([^\s(){}.;,@\"«»\[\]\\:`]+) =", text, re.M)}
            names &= mine | {w for w in fields | sites if not MADE.match(w)}
        mark = "//" if path.endswith(".rt") else "--"
        if path.endswith(".edit") or path.endswith(".md"):
            mark = "\0"
        if path.endswith(".md"):
            # port.py has turned some names of ours, and no page
            told = own | {w for w in words(text, mark) if is_dashed(w) and snake(w) in known}
            new = re.sub(r"`[^`\n]*`", lambda m: turn(m.group(0), told, mark), text)
        else:
            there = words(text, mark)
            for w in sorted(names & there):
                if snake(w) in there:
                    print(f"look: {path}: {w} falls together with {snake(w)}")
            new = turn(text, names, mark)
        if new != text:
            with open(path, "w", encoding="utf-8") as it:
                it.write(new)
            changed += 1
    print(f"{len(own)} names, {changed} files")


if __name__ == "__main__":
    sys.exit(main())
