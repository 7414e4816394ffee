#!/usr/bin/env python3
"""Turns the must-fail edits of definitions and proofs to today's spelling, once, after the toolchain's script and before spelling.py:
paths, operators, projections and the names that the toolchain's script gave. Edits of code stay as they are.
usage: python3 tools/turn_edits.py NAMES [FOLDER]; NAMES has a line 'OLD NEW' for each name that the script turned."""
import glob
import re
import sys

OPERATORS = {"+", "-", "*", "/", "%", "^", "&&", "||", "∷", "++", "≡", "⇒", "=", "→", "≔", "×", "<", "≤", ":", "⊎", "∙"}


def paths(text):
    text = re.sub(r"Rattle·(\w+)·(specs|proofs)\.\2\.", r"Rattle.\1.\2.", text)
    return re.sub(r"Rattle·(\w+)", r"Rattle.\1", text)


def tokens(text):
    """Words, brackets, separators and the spaces between."""
    return re.findall(r"[(){}\[\],;]|\s+|[^\s(){}\[\],;]+", text)


def tighten(text):
    """x .y becomes x.y, f x .y becomes (f x).y, and (x.y) alone x.y."""
    while True:
        found = re.search(r"[ ]\.([^\s(){}\[\],;]+)", text)
        if not found:
            break
        start, at, deep, begin = found.start(), found.start() - 1, 0, 0
        last = start
        # back over what the projection is of: to an opening bracket, a separator or an operator
        while at >= 0:
            c = text[at]
            if c in ")]}":
                deep += 1
            elif c in "([{":
                if deep == 0:
                    break
                deep -= 1
            elif deep == 0 and c in ",;":
                break
            elif deep == 0 and c == " ":
                word = text[at + 1 : last].strip()
                if word in OPERATORS or re.search(r"\S\.$", word) or word in ("λ",):
                    at = at + 1 + len(word)
                    break
                last = at
            at -= 1
        else:
            at = -1
        word = text[at + 1 : last].strip()
        if at == -1 and word in OPERATORS:
            at = len(word)
        head = text[at + 1 : start]
        lead = len(head) - len(head.lstrip())
        front, head = text[: at + 1 + lead], head.strip()
        end = found.end()
        single = " " not in re.sub(r"\([^()]*(\([^()]*\)[^()]*)*\)", "", head) and not re.match(r".+\(", head)
        text = front + (head if single else "(" + head + ")") + "." + found[1] + text[end:]
    while True:
        new = re.sub(r"\(([^\s(){}\[\],;]+\.[^\s(){}\[\],;]+)\)", lambda m: m[1] if not m[1].startswith(("λ", ".")) else m[0], text)
        new = re.sub(r"\(\((\w[^()]*)\)\.(\w+)\)", r"(\1).\2", new)
        if new == text:
            return text
        text = new


def main():
    turned = dict(line.split()[:2] for line in open(sys.argv[1], encoding="utf-8"))
    root = sys.argv[2] if len(sys.argv) > 2 else "."

    def name(word):
        if word in turned:
            return turned[word]
        if "." in word and not word.startswith("."):
            return ".".join(turned.get(part, part) for part in word.split("."))
        return word

    for path in sorted(glob.glob(root + "/crates/*/must-fail/*.edit")):
        out, proof = [], False
        for line in open(path, encoding="utf-8").read().split("\n"):
            key = line.split(":")[0]
            if key == "file":
                proof = line.endswith(".antt")
            if proof and key in ("old", "new"):
                head, text = line[:5], line[5:]
                text = tighten(paths(text))
                text = "".join(name(t) for t in tokens(text))
                line = head + text
            out.append(line)
        open(path, "w", encoding="utf-8").write("\n".join(out))


main()
