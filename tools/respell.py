#!/usr/bin/env python3
"""Spells this repository's own definitions and lemmas as today's Rattle spells names.

usage: python3 tools/respell.py [--dry]      at the top of the repository, after the toolchain's own script

A type or a fact is in upper camel case, and every other name of specs/ and proofs/ in snake case. A dash stays in a
lemma's name where it joins two definitions, as in first-seek. Only names that specs/ and proofs/ declare are spelled
anew, where they stand as whole words: in .antt files, in the clauses and ghost items of .rt files, and in must-fail
edits. Names that the check makes up, in a function's Answers and Invariants, stay, and so do code, strings, comments,
inputs and outputs. A name that stands elsewhere already is listed, to be looked at: where it would meet another one,
INSTEAD says how it is spelled.
"""
import os
import re
import sys

# Names whose plain respelling would meet another name, and what they are called.
INSTEAD = {
    # each of these would have the name of a file
    "In-turn": "IsInTurn",
    "High-scalars": "AreHighScalars",
    "Order-free": "IsOrderFree",
    "Finds-links": "FindsTheLinks",
}

WORD = r"[^\s(){}.;,@\"«»|]+"
TOKEN = re.compile(WORD)
HEADS = {"goal", "need", "c", "w", "l", "g"}
ANSWERS = re.compile(r"/proofs/.*(Answers|Invariants|Proof)\.antt$")
DECLARES = re.compile(r"^(\s*)((?:abbrev |unfoldable |pub |record |data |mutual )*)(%s)((?:\s*[({].*)?\s*):\s(.*)$" % WORD)


def antt_files():
    for folder, dirs, files in os.walk("crates"):
        dirs[:] = sorted(d for d in dirs if d != "out")
        for name in sorted(files):
            if name.endswith(".antt"):
                yield os.path.join(folder, name)


def other_files(*endings):
    for folder, dirs, files in os.walk("crates"):
        dirs[:] = sorted(d for d in dirs if d != "out")
        for name in sorted(files):
            if name.endswith(endings):
                yield os.path.join(folder, name)


def is_type(keywords, signature):
    """Whether a declaration is of a type or a fact: a record, a data type, or what ends in Type."""
    if "record" in keywords or "data" in keywords:
        return True
    return re.search(r"(^|→\s*)Type( \d+|\s|$)[^→]*$", signature) is not None


def declared():
    """Each name that specs/ and proofs/ declare, with: is it a type, does specs/ declare it."""
    names = {}
    for path in antt_files():
        answers = ANSWERS.search(path)
        for line in open(path, encoding="utf-8"):
            line = line.split(" -- ")[0].rstrip()
            if line.lstrip().startswith("--"):
                continue
            found = DECLARES.match(line)
            if not found:
                continue
            keywords, name, signature = found[2], found[3], found[5]
            if re.search(r"\b(let|λ|in|elim|record \{|use)\b", found[1] + found[2]) or name in ("let", "in"):
                continue
            if answers and re.match(r"(goal|need)\.", signature):
                continue
            kind = names.setdefault(name, [False, False])
            kind[0] |= is_type(keywords, signature)
            kind[1] |= "/specs/" in path
    return names


def camel(name):
    return "".join(part[:1].upper() + part[1:] for part in re.split("[-_]", name))


def snake(name):
    name = re.sub(r"(?<=[a-z0-9])([A-Z])(?=[a-z])", lambda m: "_" + m[1].lower(), name)
    return name.replace("-", "_")


def joined(name, words):
    """The lemma's name cut into definitions, where it is nothing but these."""
    parts = name.split("-")

    def cut(i):
        if i == len(parts):
            return []
        for j in range(len(parts), i, -1):
            word = "_".join(parts[i:j])
            if word in words or word[:1].isupper() and j == i + 1:
                rest = cut(j)
                if rest is not None:
                    return [word] + rest
        return None

    got = cut(0)
    return "-".join(got) if got and len(got) > 1 else None


def labels():
    """The labels of clauses and ghost items as an older kit spelled them in proofs, with dashes, to the source's spelling."""
    found = {}
    for path in other_files(".rt"):
        for word in re.findall(r"\b(?:requires|ensures|ghost)\*? +(\w+_\w+) *[{:=]", open(path, encoding="utf-8").read()):
            found[word.replace("_", "-")] = word
    return found


def renames():
    names = declared()
    words = {snake(n) for n, (_, in_specs) in names.items() if in_specs and n[:1].islower()}
    words |= {"length", "take", "drop", "cond", "get_or", "map", "set", "reverse", "append"}
    to = {}
    for name, (a_type, in_specs) in names.items():
        if name in INSTEAD:
            to[name] = INSTEAD[name]
        elif a_type:
            if "-" in name or "_" in name or name[:1].islower():
                to[name] = camel(name)
        elif "-" in name or re.search("[a-z][A-Z]", name):
            if name[:1].isupper():
                continue
            to[name] = (None if in_specs else joined(name, words)) or snake(name)
    for old, new in labels().items():
        to.setdefault(old, new)
    return {a: b for a, b in to.items() if a != b}, names


def respelled(text, to, antt, answers):
    """The text with each whole word respelled outside comments and strings."""
    out = []
    for line in text.split("\n"):
        mark = "--" if antt else "//"
        cut = re.search(r"(^|\s)" + mark + r"(\s|$)", line)
        head, tail = (line[: cut.start()], line[cut.start():]) if cut else (line, "")

        def one(m):
            word = m[0]
            if word not in to:
                return word
            before = head[: m.start()]
            if answers and before.endswith("."):
                owner = re.search(r"([^\s(){};,]+)\.$", before)
                if owner and owner[1].split(".")[0] in HEADS:
                    return word
            if not antt and "-" not in word:
                return word
            if head.count('"', 0, m.start()) % 2:
                return word
            return to[word]

        out.append(TOKEN.sub(one, head) + tail)
    return "\n".join(out)


def main():
    dry = "--dry" in sys.argv
    to, names = renames()
    # what stands where a respelled name would stand
    taken = {}
    for path in antt_files():
        for word in set(TOKEN.findall(open(path, encoding="utf-8").read())):
            taken.setdefault(word, set()).add(path)
    rust = {}
    for path in other_files(".rt"):
        for word in set(re.findall(r"\b\w+\b", open(path, encoding="utf-8").read())):
            rust.setdefault(word, set()).add(path)
    targets = {}
    for a, b in to.items():
        targets.setdefault(b, []).append(a)
    for b, froms in targets.items():
        if len(froms) > 1:
            print("two become one:", froms, b)
        if b in taken:
            print("stands already in proofs or specs:", froms[0], b, sorted(taken[b])[:2])
        if b in rust:
            print("stands in code:", froms[0], b, sorted(rust[b])[:2])
    if dry:
        for a, b in sorted(to.items()):
            print(a, "->", b)
        return
    for path in antt_files():
        old = open(path, encoding="utf-8").read()
        new = respelled(old, to, True, ANSWERS.search(path))
        if new != old:
            open(path, "w", encoding="utf-8").write(new)
    for path in other_files(".rt", ".edit"):
        old = open(path, encoding="utf-8").read()
        new = respelled(old, to, False, None)
        if new != old:
            open(path, "w", encoding="utf-8").write(new)


main()
