#!/usr/bin/env python3
"""Writes the definitions and lemmas of this repository in snake case, as the library does: wordAt becomes word_at.

usage: respell.py [--check] FOLDER

It rewrites the .rt, .antt and .edit files below FOLDER/crates in place, by spelling alone, once. Names that come from the library
keep their spelling, and so do those in QUOTED strings. --check writes nothing, and prints what it would rename and
each name that would fall together with another in one file.
"""

import os
import re
import sys

CAMEL = re.compile(r"(?<![A-Za-z0-9_'])[a-z][a-z0-9_]*[A-Z][A-Za-z0-9_]*")
USE = re.compile(r"\s*(?:ghost )?(?:pub )?use ([^\s{;]+?)\.?\{(.*?)\}", re.S)
# Lemmas and fields whose names a definition gets.
FIRST = {
    "crates/ciphers/proofs/States.antt": {"block_in": "block_in_lem"},
    "crates/multi_s01/proofs/Chains.antt": {"back_from": "back_from_lem"},
    "crates/machine/proofs/Simulation.antt": {"is_open": "is_open_lem"},
    "crates/lists/proofs/Explained.antt": {"is_open": "is_open_lem"},
    "crates/sealing_rules/proofs/Accepts.antt": {"open_by": "open_by_lem"},
    "crates/card_outcome/proofs/Laws.antt": {"line_ok": "line_ok_lem"},
}
OTHERWISE = {"lastCode": "last_code_of"}


def snake(name):
    if name in OTHERWISE:
        return OTHERWISE[name]
    name = re.sub(r"([a-z0-9])([A-Z])", r"\1_\2", name)
    return re.sub(r"__+", "_", name).lower()


def files(top):
    for folder, dirs, names in os.walk(os.path.join(top, "crates")):
        dirs[:] = sorted(d for d in dirs if d != "out")
        for it in sorted(names):
            if it.endswith((".rt", ".antt", ".edit")):
                yield os.path.join(folder, it)


def main(argv):
    check = "--check" in argv
    top = [it for it in argv if not it.startswith("--")][0]
    own = {it for it in os.listdir(os.path.join(top, "crates"))}
    texts = {}
    for it in files(top):
        with open(it, encoding="utf-8") as f:
            texts[it] = f.read()
    foreign = set()
    for text in texts.values():
        for module, names in USE.findall(text):
            parts = module.split(".")
            if parts[0] == "Rattle" and parts[1] in own:
                continue
            for it in re.split(r",\s*", names):
                foreign |= set(CAMEL.findall(it.split(" as ")[0]))
    found = {}
    clashes = []
    for it, text in texts.items():
        words = set(re.findall(r"(?<![A-Za-z0-9_'-])[A-Za-z_][A-Za-z0-9_'-]*", text))
        here = set(CAMEL.findall(text)) - foreign
        for name in here:
            found[name] = found.get(name, 0) + 1
            if snake(name) in words:
                clashes.append((name, it))
    if check:
        print("kept, as the library has them:", " ".join(sorted(foreign)))
        by = {}
        for name in found:
            by.setdefault(snake(name), []).append(name)
        print("fall together:", [v for v in by.values() if len(v) > 1])
        for name, it in sorted(clashes):
            print("clash:", name, snake(name), os.path.relpath(it, top))
        print(len(found), "names")
        return
    for it, text in texts.items():
        for old, name in FIRST.get(os.path.relpath(it, top), {}).items():
            text = re.sub(r"(?<![A-Za-z0-9_'.-])%s(?![A-Za-z0-9_'-])" % old, name, text)
        new = CAMEL.sub(lambda m: m[0] if m[0] in foreign else snake(m[0]), text)
        if new != text:
            with open(it, "w", encoding="utf-8") as f:
                f.write(new)
    print(len(found), "names respelled")


if __name__ == "__main__":
    main(sys.argv[1:])
