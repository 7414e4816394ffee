#!/usr/bin/env python3
"""Brings the repository's own names to today's spelling, once, after the toolchain's script: definitions, lemmas, fields and the
variables of proofs in lower camel case become snake case, and so do fields and definitions with a dash. Names of code, types, modules
and all texts in quotes stay. usage: python3 tools/spelling.py [FOLDER]; with --list it prints old and new names and changes nothing."""
import collections
import glob
import re
import sys

WORD = r"[^\s(){}\[\],;.:«»\"'`]+'*"
DECLARED = re.compile(r"^(\s*)(?:unfoldable |abbrev |pub )*(" + WORD + r")(?: [({].*)? : ")
# names that would fall together with a definition's
OTHERWISE = {"word-one": "word_one_is", "nothing-pending": "none_pending", "pending-valid": "pending_fits", "touches-agree": "touches_fit"}


def camel(word):
    return re.match(r"[a-z]", word) and re.search(r"[a-z0-9][A-Z]", word)


def snake(word):
    word = word.replace("getD", "get_or")
    return re.sub(r"([a-z0-9])([A-Z])", lambda m: m[1] + "_" + m[2].lower(), word)


def names(files):
    """Old names with their new ones."""
    dashed, said = set(), set()
    for path in files:
        in_record = False
        for line in open(path, encoding="utf-8"):
            if line.lstrip().startswith("--"):
                continue
            if re.match(r"(pub )?record .*where", line):
                in_record = True
                continue
            if re.match(r"\S", line):
                in_record = False
            found = DECLARED.match(line)
            if found and "-" in found[2] and ((in_record and found[1] == "  ") or "/specs/" in path):
                dashed.add(found[2])
            if not re.match(r"\s*(pub )?use (?!Rattle\.)", line):
                said |= set(re.findall(WORD, line))
    to = {w: snake(w) for w in said if camel(w)}
    to.update({w: OTHERWISE.get(w, w.replace("-", "_")) for w in dashed})
    return to, said


def main():
    words = [w for w in sys.argv[1:] if w != "--list"]
    root = words[0] if words else "."
    proofs = sorted(glob.glob(root + "/crates/**/*.antt", recursive=True))
    to, said = names(proofs)
    together = collections.Counter(to.values())
    for old, new in sorted(to.items()):
        if together[new] > 1:
            print("fall together:", old, new)
        elif new in said and "--list" in sys.argv:
            print("stands already:", old, new)
    if "--list" in sys.argv:
        for old, new in sorted(to.items()):
            print(old, new)
        return
    pattern = re.compile(r"(?<![^\s(){}\[\],;.:«»\"'`])(" + "|".join(re.escape(w) for w in sorted(to, key=len, reverse=True)) + r")(?![^\s(){}\[\],;.:«»\"`])")
    code = glob.glob(root + "/crates/**/*.rt", recursive=True)
    edits = glob.glob(root + "/crates/**/*.edit", recursive=True)
    pages = glob.glob(root + "/docs/**/*.md", recursive=True) + [root + "/README.md"]
    for path in sorted(proofs + code + edits + pages):
        text = open(path, encoding="utf-8").read()
        new = pattern.sub(lambda m: to[m[1]], text)
        if new != text:
            open(path, "w", encoding="utf-8").write(new)
    # pages cite names in back quotes: there those that the toolchain's script turned too
    turned = dict(line.split() for line in open(root + "/tools/turned-names.txt", encoding="utf-8"))

    def quoted(found):
        return re.sub(r"[^\s(){}\[\],;.:`]+", lambda m: turned.get(m[0], m[0]), found[0])

    for path in sorted(pages):
        text = open(path, encoding="utf-8").read()
        new = re.sub(r"`[^`\n]+`", quoted, text)
        if new != text:
            open(path, "w", encoding="utf-8").write(new)


main()
