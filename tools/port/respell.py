#!/usr/bin/env python3
"""Spells this repository's own definitions and lemmas as today's Rattle spells its own: words in snake case, types in camel case.

usage: python3 tools/port/respell.py      at the top of the repository, once, after the kit's port.py

A name turns if a file of specs/ or proofs/ declares it and it has a dash. It turns in specs/, proofs/, clauses, ghost items, must-fail edits,
planted bugs, and in code spans of comments and pages. Names that the check makes (goals, loops, calls: what stands first behind goal., c., w., l.)
stay, and so do strings. A name that would fall together with another one is told, and nothing is written then.
"""
import glob
import os
import re
import sys

WORD = re.compile(r'[^\s(){}.;,@"«»`⟨⟩\[\]:]+')
DECLARED = re.compile(r'^ *(?:abbrev |unfoldable |pub |inductive |mutual |ghost )*(?:record |data )?([^\s(){}.;,@"«»:]+)(?: [^:=\n]*?)? :(?: |$)')
QUIET = re.compile(r'"(?:[^"\\\n]|\\.)*"|--[^\n]*|//[^\n]*')
SPAN = re.compile(r'`[^`\n]+`')
HEADS = {"goal", "given", "c", "w", "l", "need"}
# lemmas whose names begin with the type that they speak of
LEMMAS = {"All-weaker": "all_weaker", "All-kept": "AllKept"}


def sources():
    return sorted(glob.glob("crates/*/specs/*.antt") + glob.glob("crates/*/proofs/**/*.antt", recursive=True))


def spelled(name):
    if name in LEMMAS:
        return LEMMAS[name]
    if name[0].isupper():
        return "".join(p[:1].upper() + p[1:] for p in name.split("-"))
    return name.replace("-", "_")


def declared():
    names = set()
    for path in sources():
        made = path.endswith(("/Answers.antt", "/Invariants.antt", "/Proof.antt"))
        for line in open(path, encoding="utf-8"):
            m = DECLARED.match(line)
            if not m or "-" not in m.group(1) or not m.group(1)[0].isalpha():
                continue
            if made and re.search(r" :\s*(goal|given)\.", line):
                continue
            names.add(m.group(1))
    return names


def turn_code(text, table):
    out, last = [], 0
    for m in WORD.finditer(text):
        new = table.get(m.group())
        if new is None:
            continue
        before = text[: m.start()]
        if before.endswith("."):
            head = re.search(r'([^\s(){}.;,@"«»]+)\.$', before)
            if head and head.group(1) in HEADS and not re.search(r'\.[^\s(){}.;,@"«»]+\.$', before):
                continue
        out += [text[last : m.start()], new]
        last = m.end()
    return "".join(out) + text[last:]


def turn_spans(text, table):
    return SPAN.sub(lambda m: turn_code(m.group(), table), text)


def turn(text, table):
    out, last = [], 0
    for m in QUIET.finditer(text):
        out.append(turn_code(text[last : m.start()], table))
        quiet = m.group()
        out.append(quiet if quiet[0] == '"' else turn_spans(quiet, table))
        last = m.end()
    return "".join(out) + turn_code(text[last:], table)


def main():
    if not os.path.exists("crates.txt"):
        sys.exit("respell: at the top of the repository")
    table = {name: spelled(name) for name in declared()}
    # a name that a library has stays: an import from outside the repository names it
    crates = {os.path.basename(p) for p in glob.glob("crates/*")}
    for path in sources() + glob.glob("crates/*/src/**/*.rt", recursive=True):
        for m in re.finditer(r"use ([^\s;{]+)\{([^}]*)\}", open(path, encoding="utf-8").read()):
            parts = m.group(1).split(".")
            if parts[0] == "Rattle" and parts[1] in crates:
                continue
            for item in m.group(2).split(","):
                if table.pop(item.strip().split(" as ")[0], None):
                    print("stays, a library has it:", item.strip())
    words = set()
    for path in sources() + glob.glob("crates/*/src/**/*.rt", recursive=True):
        words |= set(WORD.findall(QUIET.sub(" ", open(path, encoding="utf-8").read())))
    new = list(table.values())
    twice = sorted({n for n in new if new.count(n) > 1})
    there = sorted(n for n in set(new) if n in words)
    if twice:
        sys.exit("respell: two names fall together: " + ", ".join(twice))
    print("spelled like a word that stands already:", ", ".join(there))
    count = 0
    for path in sources() + glob.glob("crates/*/src/**/*.rt", recursive=True) + glob.glob("crates/*/must-fail/*.edit") + glob.glob("tools/planted/*/*.bug") + glob.glob("*.md") + glob.glob("docs/*.md"):
        text = open(path, encoding="utf-8").read()
        done = turn_spans(text, table) if path.endswith(".md") else turn(text, table)
        if done != text:
            open(path, "w", encoding="utf-8").write(done)
            count += 1
    print(f"respell: {len(table)} names in {count} files")


main()
