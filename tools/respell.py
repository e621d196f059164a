#!/usr/bin/env python3
"""Respells the repository's own definitions, lemmas, record fields and ghost fields in snake case, once.

usage: python3 tools/respell.py            at the top of the repository, right after the kit's own script for an older repository

tools/respell.txt has the names, old and new, a pair a line. In an .antt file every word outside comments is turned; in an .rt file
the words outside comments and texts, and names that end in '?' only in clauses and ghost items; in a must-fail edit the two texts.
A name that a file imports from a library stays as it is in that file. Functions of src/ keep their names.
"""
import os
import re

HERE = os.path.dirname(os.path.realpath(__file__))
TABLE = dict(line.split() for line in open(os.path.join(HERE, "respell.txt"), encoding="utf-8"))
WORD = re.compile(r"[^\s(){}\[\].,;:λ→≡⌜⌝«»\"]+")
# local names that would hide a respelled one
LOCAL = {"crates/solver/proofs/Sifts.antt": {"is_free": "loose_here"}}


def own_crates():
    return {d for d in os.listdir("crates") if os.path.isdir(os.path.join("crates", d))}


def imported(text, own):
    """The names that the file takes from a library."""
    names = set()
    for m in re.finditer(r"^(?:ghost )?use ([\w.·'-]+)\.\{([^}]*)\}", text, re.M):
        path = m.group(1).split(".")
        if path[0] == "Rattle" and path[1] in own:
            continue
        names |= {n.split(" as ")[0].strip() for n in m.group(2).split(",")}
    return names


def turn(text, keep, local, questions=True):
    def word(m):
        w = m.group(0)
        w = local.get(w, w)
        if w in keep or (w.endswith("?") and not questions):
            return w
        return TABLE.get(w, w)

    return WORD.sub(word, text)


def antt(text, keep, local):
    lines = []
    for line in text.split("\n"):
        code, mark, comment = line, "", ""
        if line.lstrip().startswith("--"):
            code, comment = "", line
        elif " -- " in line:
            i = line.index(" -- ")
            code, comment = line[:i], line[i:]
        lines.append(turn(code, keep, local) + comment)
    return "\n".join(lines)


def ghost_lines(lines):
    """Whether each line belongs to a clause or a ghost item."""
    depth, inside = 0, False
    for line in lines:
        start = re.match(r"\s*(ghost|requires|ensures|\#\[tactic)\b", line)
        if start and not inside:
            inside, depth = True, 0
        if inside:
            depth += line.count("{") - line.count("}")
            yield True
            if depth <= 0:
                inside = False
        else:
            yield False


def rt(text, keep):
    lines = text.split("\n")
    out = []
    for line, ghost in zip(lines, ghost_lines(lines)):
        if line.lstrip().startswith("//") or ('"' in line and not ghost):
            out.append(line)
        else:
            out.append(turn(line, keep, {}, ghost))
    return "\n".join(out)


def edit(text):
    head = re.search(r"^file: (.*)$", text, re.M)
    questions = bool(head) and head.group(1).startswith("specs/")
    lines = []
    for line in text.split("\n"):
        m = re.match(r"(old|new): (.*)$", line)
        lines.append(f"{m.group(1)}: {turn(m.group(2), set(), {}, questions)}" if m else line)
    return "\n".join(lines)


def main():
    own, changed = own_crates(), 0
    for folder, dirs, files in os.walk("crates"):
        dirs[:] = sorted(d for d in dirs if d != "out")
        for name in sorted(files):
            path = os.path.join(folder, name)
            if not name.endswith((".antt", ".rt", ".edit")):
                continue
            text = open(path, encoding="utf-8").read()
            if name.endswith(".antt"):
                new = antt(text, imported(text, own), LOCAL.get(path, {}))
            elif name.endswith(".rt"):
                new = rt(text, imported(text, own))
            else:
                new = edit(text)
            if new != text:
                open(path, "w", encoding="utf-8").write(new)
                changed += 1
    print(f"respell: {changed} files changed")


if __name__ == "__main__":
    main()
