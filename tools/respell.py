#!/usr/bin/env python3
"""Brings the definitions and lemmas of specs/ and proofs/ to snake case, once, right after the kit's port.py.

usage: python3 tools/respell.py [--check]       at the top of the repository

A type keeps its upper camel case; a word in lower camel case or with dashes gets underscores. A name that some file imports from a
library stays, and so does one that a proof of a function declares for a goal. The prime is an apostrophe. What would meet another name
is printed on a line 'meets:' and stays. The table of what turned is docs/port-names.tsv: old, a tab, new.
"""
import glob, os, re, subprocess, sys, tempfile

SNAKE = "/opt/rattle/port/notes/2026-11-18-names-are-in-snake-case/snake.py"
WORD = r'[^\s(){}.;,@"«»]+'
DECLARED = re.compile(rf"(?m)^[ |]*(?:(?:pattern|unfoldable|abbrev|pub|axiom|data|record|mutual|do|where|in) +)*({WORD})(?=[ \n])")
USE = re.compile(r"\buse ([^\s;{]+?)\.?(\{[^}]*\})?(?: as ([^\s;]+))?[;\n]")
OWN = {os.path.basename(d) for d in glob.glob("crates/*")}


# Lemmas that port.py gave the name that a definition gets here: they end in _lem (not behind a dot, where the word is another's).
LEMMAS = [
    ("laws/specs/*", "of_pair"), ("examples/specs/*", "not_first"), ("examples/specs/*", "not_last"), ("list_rules/proofs/**/*", "not_last"),
    ("rewrite/proofs/**/*", "no_way_back"), ("laws/specs/SameForm", "bounds_ok"), ("editions/specs/ThereAndBack", "goes_back"),
    ("newer/proofs/Laws", "same_bytes"), ("lent/proofs/**/*", "row_of"), ("list_reader/proofs/**/*", "head_ok"),
]


def new_name(old):
    if re.match(r"[A-Z]", old) and "-" not in old: return old  # a type
    word = old.replace("′", "'")
    head = ""
    if re.match(r"[A-Z]\w*-", word):  # a type at the head keeps its dash
        head, _, word = word.partition("-")
        head += "-"
    word = word.replace("-", "_")
    word = re.sub(r"(?<=[a-z0-9])([A-Z])(?=[a-z])", lambda m: "_" + m.group(1).lower(), word)
    word = re.sub(r"(?<=[a-z0-9])([A-Z])(?![A-Za-z])", lambda m: "_" + m.group(1).lower(), word)
    word = re.sub(r"(?<=[a-z0-9])([A-Z]+)", lambda m: "_" + m.group(1).lower(), word)
    return head + word


def files():
    return sorted(glob.glob("crates/*/specs/**/*.antt", recursive=True) + glob.glob("crates/*/proofs/**/*.antt", recursive=True))


def main():
    check = "--check" in sys.argv
    for where, word in [] if check else LEMMAS:
        for path in glob.glob(f"crates/{where}.antt", recursive=True):
            text = open(path, encoding="utf-8").read()
            new = re.sub(rf"(?<![\w.'-]){word}(?![\w'-])", word + "_lem", text)
            if new != text: open(path, "w", encoding="utf-8").write(new)
    declared, library, words, goals = {}, set(), {}, set()
    for path in files() + sorted(glob.glob("crates/*/src/*.rt")):
        text = open(path, encoding="utf-8").read()
        code = re.sub(r"(?m)(?<!\S)--.*$", "", text)
        words[path] = set(re.findall(WORD, code))
        for module, items, name in USE.findall(code):
            own = re.match(r"Rattle\.(\w+)", module)
            if own and own.group(1) in OWN: continue
            for item in re.findall(WORD, items.strip("{}")) if items else [module.rsplit(".", 1)[-1]]: library.add(item)
        if path.endswith(".rt"): continue
        if re.search(r"/proofs/.*/(Proof|Answers|Invariants)\.antt$", path):
            goals |= set(re.findall(rf"(?m)^ *(?:abbrev )?(?:pub )?({WORD}) : tie\.", code))
            continue
        for name in DECLARED.findall(code): declared.setdefault(name, path)
    table, taken = {}, {}
    every = set().union(*words.values())
    # a definition takes its name before a lemma, which ends in _lem where it would have the name of what it is about
    for name in sorted(declared, key=lambda n: ("-" in n, n)):
        if not re.match(r"[A-Za-z]", name) or name in library or name in goals: continue
        to = new_name(name)
        if to == name: continue
        if "-" in name and (to in taken or any(name in words[p] and to in words[p] for p in words)): to += "_lem"
        if to in taken:
            print(f"meets: {name} -> {to} ({taken[to]}) in {declared[name]}")
            continue
        taken[to] = name
        table[name] = to
    print(f"{len(table)} names")
    if check:
        for name, to in table.items(): print(name, to)
        return
    os.makedirs("docs", exist_ok=True)
    with open("docs/port-names.tsv", "w") as f:
        for name, to in sorted(table.items()): f.write(f"{name}\t{to}\n")
    subprocess.run([sys.executable, SNAKE, "--table", "docs/port-names.tsv", "--prose", "all", "crates"], check=True)
    for path in files():
        text = open(path, encoding="utf-8").read()
        if "′" in text: open(path, "w", encoding="utf-8").write(text.replace("′", "'"))


main()
