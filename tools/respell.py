#!/usr/bin/env python3
"""Brings the repository's own definitions and lemmas to one spelling, after the port's script has run.

usage: tools/respell.py        at the top of the repository, once

Words are in snake case: `writtenPaper` becomes `written_paper`, and `check-utf8` becomes `check_utf8`. Types and modules keep their capitals, and so does
what is the library's. Where a lemma would then have the name of a definition, it ends in `_lem`.
Files of proofs that answer a function's goals keep the goals' names.
"""

import collections
import os
import re

ID = re.compile(r"[^\s(){}\[\].,;:=λ→↔×∷≡≤<>+*/%|&\"⌜⌝?!@#~∙←↦⊢`·◌…]+")
USE = re.compile(r"^\s*use ([\w.\-+']+)\.\{([^}]*)\}", re.M)
CLAUSE = re.compile(r"ghost use [^;]*;|\b(?:requires|ensures)\*?(?: \w+)? \{.*?\}\s*(?=requires|ensures|\{|;)|ghost \w+: \{.*?\}", re.S)

# lemmas that would have their definition's name; and two that would have another lemma's
LEM = set(
    "mark-byte marked-pieces first-where first-unsound checked-reader list-answer checked-answer row-answer only-padding digits-fault char-size alt-fine filter-fine"
    " above-answer join-answer dot-text record-numbers ten-fields record-values bare-at one-length one-text head-bad kept-bytes any-missing last-start form-of"
    " is-whole width-by".split()
)
# in one crate: a name that the port's script has already given, and that a definition takes now
TAKEN = {
    "decimal": {"digits_value": "digits_value_lem"},
    "forms": {"ends_by": "ends_by_lem"},
    "record": {"one_by_one": "one_by_one_lem"},
    "listing": {"one_more": "one_more_lem"},
    "bcf": {"room_in": "room_in_lem"},
}


def antt(root):
    for crate in sorted(os.listdir(os.path.join(root, "crates"))):
        for sub in ("specs", "proofs"):
            for folder, _, names in os.walk(os.path.join(root, "crates", crate, sub)):
                for name in sorted(names):
                    if name.endswith(".antt"):
                        yield crate, os.path.join(folder, name)


def read(path):
    with open(path, encoding="utf-8") as f:
        return f.read()


def write(path, old, new):
    if old != new:
        with open(path, "w", encoding="utf-8") as f:
            f.write(new)


def snake(word):
    word = re.sub(r"(?<=[a-z0-9₀-₉'])([A-Z])", lambda m: "_" + m[1].lower(), word)
    return word.replace("-", "_")


def is_other(word):
    return re.match(r"[a-z]", word) and ("-" in word or re.search(r"[A-Z]", word))


def table(root):
    """The names of the repository that have another spelling, and that spelling."""
    crates = set(os.listdir(os.path.join(root, "crates")))
    library, words = set(), set()
    for _, path in antt(root):
        text = re.sub(r"--[^\n]*", "", read(path))
        for m in USE.finditer(text):
            mine = m[1].startswith("Rattle.") and m[1].split(".")[1] in crates
            names = {n.strip().split(" as ")[0] for n in m[2].split(",")}
            if not mine:
                library |= {n for n in names if is_other(n)}
        if os.path.basename(path) != "Proof.antt":
            words |= {w for w in ID.findall(text) if is_other(w)}
    return {w: snake(w) + ("_lem" if w in LEM else "") for w in words - library}


def turn_code(text, names, goals):
    """Every name of antt's text; with goals, the steps and the goals of a function's proof stay."""

    def one(m):
        if goals:
            before = text[: m.start()]
            path = re.search(r"[\w'\-.₀-₉]*\.$", before)
            if path and path[0].split(".")[0] in ("c", "tie"):
                return m[0]
        return names.get(m[0], m[0])

    return ID.sub(one, text)


def turn_antt(text, names, goals):
    out = []
    for line in text.split("\n"):
        code, dash, said = line.partition("--")
        if re.match(r"\s*-- |\s*--$", line):
            code, dash, said = line[: line.index("--")], "--", line[line.index("--") + 2 :]
        elif not re.search(r"(^|\s)-- ", line):
            code, dash, said = line, "", ""
        out.append(turn_code(code, names, goals) + dash + turn_words(said, names))
    return "\n".join(out)


def turn_words(text, names):
    """Prose: a name in backquotes, and a name in camel case anywhere."""
    text = re.sub(r"`([^`\n]*)`", lambda m: "`" + ID.sub(lambda w: names.get(w[0], w[0]), m[1]) + "`", text)
    return ID.sub(lambda m: names.get(m[0], m[0]) if "-" not in m[0] else m[0], text)


def turn_rattle(text, names):
    text = CLAUSE.sub(lambda m: ID.sub(lambda w: names.get(w[0], w[0]), m[0]), text)
    return turn_words(text, names)


def main(root="."):
    names = table(root)
    both = collections.defaultdict(set)
    for old, new in names.items():
        both[new].add(old)
    for new, olds in sorted(both.items()):
        if len(olds) > 1:
            print("one name for two:", new, sorted(olds))
    for crate, path in antt(root):
        old = read(path)
        goals = os.path.basename(path) == "Proof.antt"
        new = old
        for was, now in TAKEN.get(crate, {}).items():
            new = ID.sub(lambda m: now if m[0] == was else m[0], new)
        write(path, old, turn_antt(new, names, goals))
    for crate in sorted(os.listdir(os.path.join(root, "crates"))):
        for folder, _, files in os.walk(os.path.join(root, "crates", crate, "src")):
            for name in sorted(files):
                path = os.path.join(folder, name)
                write(path, read(path), turn_rattle(read(path), names))
        folder = os.path.join(root, "crates", crate, "must-fail")
        for name in sorted(os.listdir(folder)) if os.path.isdir(folder) else []:
            path = os.path.join(folder, name)
            write(path, read(path), "\n".join(ID.sub(lambda m: names.get(m[0], m[0]), l) if l.startswith(("old:", "new:")) else turn_words(l, names) for l in read(path).split("\n")))
    pages = [os.path.join(root, "README.md")] + [os.path.join(root, "docs", p) for p in sorted(os.listdir(os.path.join(root, "docs"))) if p not in ("LANDINGS.md", "PORT.md")]
    for path in pages:
        old = read(path)
        write(path, old, re.sub(r"`([^`\n]*)`", lambda m: "`" + ID.sub(lambda w: names.get(w[0], w[0]), m[1]) + "`", old))
    print(len(names), "names have another spelling now")


if __name__ == "__main__":
    main()
