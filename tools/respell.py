#!/usr/bin/env python3
"""Brings the definitions and lemmas of this repository to the spelling of the kit's library, once, after the kit's own port.py.

Definitions, fields, constructors and lemmas go to snake case, facts and types to upper camel case; the crate `bytes` becomes `byteclass`,
since the kit has a library of that name. Names of src/, strings, comments, inputs and outputs stay. Run it at the top of the repository;
it prints each name that falls together with another one.
"""

import collections
import glob
import os
import re
import subprocess

CRATES = {"bytes": "byteclass"}
# Names whose mechanical spelling would mislead or fall together with another one.
CHOSEN = {
    "holds-getD": "holds_get_or",
    "fnv-1a": "fnv_1a",
    "name-of": "name_of_lem",
    "file-scope": "file_scope_lem",
    "finish-by": "finish_by_lem",
    "low-depth": "low_depth_lem",
    "mention-at": "mention_at_lem",
    "placeFrom": "place_from_on",
}
WORDS = {"abbrev", "pub", "data", "record", "module", "let", "in", "λ", "where", "rw", "use", "search", "omega", "elim"}
DEFINED = re.compile(r"^\s*(?:abbrev\s+)?(?:pub\s+)?(?:data\s+|record\s+|module\s+)?([^\s(){}:;=,]+(?:\s+[^\s(){}:;=,]+)*?)\s*(?:[({].*)?\s:\s")
DERIVED = re.compile(r"deriving \w+ as ([^\s]+)")
MADE = re.compile(r":\s*(?:goal|need|given)\.")
TOKEN = re.compile(r"[A-Za-z_ℕμκ][\w'₀-₉ℕ≢≡≤<-]*")


def new_name(name):
    if name in CHOSEN:
        return CHOSEN[name]
    parts = [p for p in name.split("-") if p]
    if name[0].isupper():
        return "".join(p[0].upper() + p[1:] for p in parts)
    snake = "_".join(parts)
    if re.search(r"[a-z0-9][A-Z]", snake):
        snake = re.sub(r"([a-z0-9])([A-Z])", lambda m: m.group(1) + "_" + m.group(2).lower(), snake)
    return snake


def antt(kind):
    return sorted(glob.glob(f"crates/*/{kind}/**/*.antt", recursive=True))


def names():
    """Every name that specs/ and proofs/ define, but for goals, whose names the kit makes."""
    found = collections.defaultdict(set)
    for path in antt("specs") + antt("proofs"):
        with open(path, encoding="utf-8") as f:
            for line in f:
                if line.lstrip().startswith("--"):
                    continue
                for n in DERIVED.findall(line):
                    found[n].add(path)
                m = DEFINED.match(line)
                if not m or MADE.search(line):
                    continue
                for n in m.group(1).split():
                    if n not in WORDS and TOKEN.fullmatch(n):
                        found[n].add(path)
    return found


# An import from the kit: what it names keeps its spelling in that file.
IMPORT = re.compile(r"^\s*(?:pub\s+)?(?:ghost\s+)?use\s+([\w.'-]+)\.\{([^}]*)\}", re.M)


def own_table(text, table, crates):
    kept = set()
    for module, items in IMPORT.findall(text):
        parts = module.split(".")
        if parts[0] != "Rattle" or parts[1] not in crates:
            kept |= {w for it in items.split(",") for w in it.split()}
    return {n: new for n, new in table.items() if n not in kept}


def turn_text(text, table):
    return TOKEN.sub(lambda m: table.get(m.group(0), m.group(0)), text)


def turn_antt(text, table):
    return "\n".join(l if l.lstrip().startswith("--") else turn_text(l, table) for l in text.split("\n"))


# A string, a character, a comment: left as they are.
KEPT = re.compile(r'b?"(?:\\.|[^"\\])*"|b?\'(?:\\.|[^\'\\])\'|//[^\n]*')


def turn_rt(text, table):
    out, at = [], 0
    for m in KEPT.finditer(text):
        out += [turn_text(text[at:m.start()], table), m.group(0)]
        at = m.end()
    return "".join(out + [turn_text(text[at:], table)])


def crate_paths(text):
    for old, new in CRATES.items():
        text = re.sub(rf"\bRattle\.{old}\.", f"Rattle.{new}.", text)
        text = re.sub(rf"\buse {old}::", f"use {new}::", text)
    return text


def main():
    found = names()
    table = {n: new_name(n) for n in found if new_name(n) != n}
    news = collections.defaultdict(set)
    for n in found:
        news[new_name(n)].add(n)
    for new, olds in sorted(news.items()):
        if len(olds) > 1:
            print("falls together:", new, "from", *sorted(f"{o} ({', '.join(sorted(found[o]))})" for o in olds))
    crates = set(os.listdir("crates"))
    for old, new in CRATES.items():
        if os.path.isdir(f"crates/{old}"):
            subprocess.run(["git", "mv", f"crates/{old}", f"crates/{new}"], check=True)
    for path in antt("specs") + antt("proofs") + sorted(glob.glob("crates/*/src/**/*.rt", recursive=True)):
        with open(path, encoding="utf-8") as f:
            text = f.read()
        turn = turn_rt if path.endswith(".rt") else turn_antt
        turned = crate_paths(turn(text, own_table(text, table, crates)))
        if turned != text:
            with open(path, "w", encoding="utf-8") as f:
                f.write(turned)
    with open("crates.txt", encoding="utf-8") as f:
        lines = f.read()
    for old, new in CRATES.items():
        lines = re.sub(rf"\b{old}\b", new, lines)
    with open("crates.txt", "w", encoding="utf-8") as f:
        f.write(lines)
    print(len(table), "names respelled")


if __name__ == "__main__":
    main()
