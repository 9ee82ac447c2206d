#!/usr/bin/env python3
"""Writes the project's own definitions, fields and lemmas in snake case, and its types and statements in camel case.

usage: spell_names.py        at the top of the repository

    code-good, question-drawn, Practice-says  ->  code_good, question_drawn, PracticeSays

It goes by text, and turns specs/, proofs/, the clauses of src/, the lines of must-fail/*.edit, and what stands between back quotes in comments and
pages. A name of the library keeps its spelling, and so does one that Rattle makes: in a proof of a function, a name whose signature is a goal's.
It prints names that fall together. A second run changes nothing.
"""

import collections
import os
import re
import sys

WORD = re.compile(r"[^\s(){}\[\],;.:\"`«»@\\|]+")
HEAD = re.compile(r"(?m)^(?:(?:pub|abbrev|unfoldable|mutual)[ ]+)*(?:(record|data|ruleset)[ ]+(?:pub[ ]+)?)?([^\s(){}\[\],;:.]+)(?=[ \n])\s*(:?)[ ]*([^\n]*)")
BOUND = re.compile(r"(?m)(?:^|[\s(])([A-Za-z][\w']*(?:-[\w']+)+)\s*:(?!:)")
FIELD = re.compile(r"(?m)^[ ]+(?:pub[ ]+)?([^\s(){}\[\],;:.]+)[ ]+:[ ]")
QUOTED = re.compile(r"`[^`\n]*`")
IMPORT = re.compile(r"(?m)^(?:ghost )?use ((?:\w+\.)*\w+)\.\{([^}]*)\}")
# Names that would fall together with words of the library that the same file names.
LIBRARY = {"crates/quantiser/proofs/Sizes.antt": {"of-fields": "of_fields_lem", "of-bits": "of_bits_lem"}}
# Words that stood in camel case, and one that named a word of the library by its older name.
CAMEL = {"costZero": "cost_zero", "costOne": "cost_one", "leastOf": "least_of", "getD_zeros": "get_or_zeros"}
KEYWORDS = {"use", "unfolding", "where", "mod", "pub", "abbrev", "unfoldable", "record", "data", "--"}


def read(path):
    with open(path, encoding="utf-8", newline="") as it:
        return it.read()


def files(root, endings):
    for folder, dirs, names in os.walk(root):
        dirs[:] = sorted(d for d in dirs if d not in ("out", "target", ".git", "__pycache__"))
        for name in sorted(names):
            if name.endswith(endings):
                yield os.path.join(folder, name)


def spelled(name):
    parts = name.split("-")
    if name[0].isupper() and len(parts[0]) > 1:
        return parts[0] + "".join(p[:1].upper() + p[1:] for p in parts[1:])
    return name.replace("-", "_")


def has_dash(name):
    return re.search(r"[^-]-[^-]", name) is not None and not name.startswith("--") and name not in KEYWORDS


def definitions(text):
    """The names with a dash that a file of specs/ or proofs/ defines at its margin, each with its signature's first line."""
    for it in HEAD.finditer(text):
        if has_dash(it.group(2)) and (it.group(1) or it.group(3)):
            yield it.group(2), it.group(4)


def of_the_library(text, crates):
    """The names that a file imports from the library."""
    found = set()
    for it in IMPORT.finditer(text):
        parts = it.group(1).split(".")
        if parts[0] != "Rattle" or parts[1] not in crates:
            found |= {n.strip().split(" as ")[0] for n in it.group(2).split(",")}
    return found


def of_a_function(path):
    return os.path.basename(path) in ("Proof.antt", "Invariants.antt", "Answers.antt") and "/proofs/" in path and not path.split("/proofs/")[1].count("/") == 0


def turned(text, names, bare=False):
    def word(it):
        new = names.get(it.group(0))
        if new is None or (bare and it.start() and text[it.start() - 1] == "."):
            return it.group(0)
        return new

    return WORD.sub(word, text)


def in_quotes(text, names):
    return QUOTED.sub(lambda it: turned(it.group(0), names), text)


def split_comments(text, mark):
    """Turns code and comments apart: yields (is a comment, part)."""
    for line in text.splitlines(keepends=True):
        at = 0
        quote = False
        while at < len(line):
            if line[at] == '"':
                quote = not quote
            elif not quote and line.startswith(mark, at) and (mark == "//" or at == 0 or line[at - 1] in " ("):
                break
            at += 1
        yield False, line[:at]
        yield True, line[at:]


def main():
    if len(sys.argv) != 1 or not os.path.isdir("crates"):
        print(__doc__)
        return 2
    crates = set(os.listdir("crates"))
    own, local = {}, collections.defaultdict(set)
    for path in files("crates", (".antt",)):
        text = read(path)
        for name, signature in definitions(text):
            if not of_a_function(path):
                own[name] = spelled(name)
            elif not signature.startswith(("tie.", "goal.")):
                local[path].add(name)
        for it in FIELD.finditer(text):
            if has_dash(it.group(1)) and not of_a_function(path):
                own[it.group(1)] = spelled(it.group(1))
    own.update(CAMEL)
    for path in files("crates", (".antt",)):
        if not of_a_function(path):
            own.update({n: spelled(n) for n in WORD.findall(read(path)) if re.fullmatch(r"[a-z]+-now", n)})
    together = collections.defaultdict(list)
    for name, new in own.items():
        together[new].append(name)
    for new, old in sorted(together.items()):
        if len(old) > 1:
            print("fall together:", new, *old)
    changed = 0
    for path in files("crates", (".antt", ".rt")):
        text = read(path)
        here = {n: spelled(n) for n in local[path]}
        if path.endswith(".antt") and not of_a_function(path):
            here.update({n: spelled(n) for n in BOUND.findall(text) if n not in own})
        foreign = of_the_library(text, crates)
        there = {n: new for n, new in own.items() if n not in foreign} | LIBRARY.get(path, {})
        parts = []
        for comment, part in split_comments(text, "//" if path.endswith(".rt") else "--"):
            if comment:
                parts.append(in_quotes(in_quotes(part, there), here))
            else:
                parts.append(turned(turned(part, there), here, bare=True))
        new = "".join(parts)
        if new != text:
            changed += 1
            with open(path, "w", encoding="utf-8", newline="") as it:
                it.write(new)
    for path in files("crates", (".edit",)):
        lines = read(path).split("\n")
        new = "\n".join(turned(l, own) if l.startswith(("old: ", "new: ")) else in_quotes(l, own) for l in lines)
        if new != "\n".join(lines):
            changed += 1
            with open(path, "w", encoding="utf-8", newline="") as it:
                it.write(new)
    pages = [p for p in files(".", (".md", ".h", ".rs", ".c", ".py", ".txt")) if not p.startswith("./tools/")]
    for path in pages:
        text = read(path)
        new = in_quotes(text, own)
        if new != text:
            changed += 1
            with open(path, "w", encoding="utf-8", newline="") as it:
                it.write(new)
    print(len(own), "names,", sum(map(len, local.values())), "names of one proof,", changed, "files")
    return 0


if __name__ == "__main__":
    raise SystemExit(main())
