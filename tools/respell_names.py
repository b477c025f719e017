#!/usr/bin/env python3
"""Brings the definitions and lemmas of specs/ and proofs/ to snake case: a hyphen between letters becomes '_'.

usage: tools/respell_names.py       at the top of the checkout, once, on what port.py left

Names that Rattle makes (goals, invariants, measures) and names of the kit stay as they are. A file specs/Contracts.antt becomes
specs/Promises.antt, since Rattle now makes a module specs.contracts.
"""

import collections
import os
import re
import subprocess
import sys

WORD = r"[^\s(){}\[\],;:.|«»⌜⌝\"]+"
TOKEN = re.compile(WORD)
SIGNATURE = re.compile(r"\s*((?:pub |unfoldable |abbrev |record |data |ruleset |module )*)(" + WORD + r"(?: " + WORD + r")*) (?::|=)(?: |$)(.*)")
FIELD = re.compile(r"[{;]\s*(" + WORD + r") =(?: |$)")
BOUND = re.compile(r"[({](" + WORD + r"(?: " + WORD + r")*) :|\bas (" + WORD + r")$|\blet (" + WORD + r") |λ ([^.]*)\.")
USE = re.compile(r"^\s*(?:ghost |pub )*use ([^;]*);?\s*$")
MADE = re.compile(r"^(?:invariant|decreases)-")


def files():
    for top in ("crates",):
        for folder, dirs, names in os.walk(top):
            dirs[:] = sorted(d for d in dirs if d != "out")
            for name in sorted(names):
                if name.endswith((".antt", ".rt")):
                    yield os.path.join(folder, name)


def own_crates():
    return {l.split(":")[0].split()[0] for l in open("crates.txt", encoding="utf-8") if l.strip() and not l.startswith("#")}


def snake(name):
    return re.sub(r"(?<=\w)-(?=\w)|(?<=')-(?=\w)|(?<=[₀-₉])-(?=\w)", "_", name)


def made_names(text):
    """The names that a proof file answers: goals, invariants and measures."""
    found = set()
    for line in text.splitlines():
        m = SIGNATURE.match(line)
        if m:
            found |= {n for n in m.group(2).split() if "tie." in m.group(3) or MADE.match(n)}
    return found


def defined(texts):
    names = set()
    for path, text in texts.items():
        if not path.endswith(".antt"):
            continue
        made = made_names(text)
        for line in text.splitlines():
            if line.lstrip().startswith("-- "):
                continue
            m = SIGNATURE.match(line)
            if m:
                names |= set(m.group(2).split()) - made
            names |= set(FIELD.findall(line)) - made
            for groups in BOUND.findall(line):
                for words in groups:
                    names |= {n for n in TOKEN.findall(words)} - made
            # the clauses of a function by cases
            m = re.match(r"\s*(" + WORD + r") .*=(?: |$)", line)
            if m and m.group(1) not in made and not line.lstrip().startswith("use "):
                names.add(m.group(1))
    return names


def kit_imports(text, crates):
    found = set()
    for line in text.splitlines():
        m = USE.match(line)
        if not m:
            continue
        path = m.group(1)
        head = re.match(r"Rattle\.(\w+)\.", path)
        if head and head.group(1) in crates:
            continue
        braces = re.search(r"\{(.*)\}", path)
        if braces:
            found |= {w.strip() for w in braces.group(1).split(",")}
    return found


def main():
    crates = own_crates()
    texts = {p: open(p, encoding="utf-8").read() for p in files()}
    names = defined(texts)
    turn = {n: snake(n) for n in names if snake(n) != n}
    old = collections.defaultdict(list)
    for n in names:
        old[snake(n)].append(n)
    clash = {k: v for k, v in old.items() if len(v) > 1}
    for k, v in sorted(clash.items()):
        print("falls together:", k, v)
    if clash and "--force" not in sys.argv:
        return 1
    for path, text in texts.items():
        kit = kit_imports(text, crates) | (made_names(text) if path.endswith("Proof.antt") else set())
        lines = []
        for line in text.splitlines(keepends=True):
            m = USE.match(line)
            head = m and re.match(r"Rattle\.(\w+)\.", m.group(1))
            foreign = m and not (head and head.group(1) in crates)
            if foreign:
                lines.append(line)
                continue
            if path.endswith(".rt"):
                if not line.lstrip().startswith("//"):
                    line = re.sub("«(" + WORD + ")»", lambda w: turn.get(w.group(1), w.group(1)) if "-" in w.group(1) or "_" in w.group(1) else w.group(0), line)
                    line = TOKEN.sub(lambda w: turn.get(w.group(0), w.group(0)), line)
            else:
                line = TOKEN.sub(lambda w: turn[w.group(0)] if w.group(0) in turn and w.group(0) not in kit else w.group(0), line)
            lines.append(line)
        text2 = re.sub(r"\bspecs\.Contracts\b", "specs.Promises", "".join(lines))
        if path.endswith("specs/Lib.antt"):
            text2 = re.sub(r"(?m)^pub mod Contracts$", "pub mod Promises", text2)
        if text2 != text:
            with open(path, "w", encoding="utf-8") as f:
                f.write(text2)
    for path in texts:
        if path.endswith("specs/Contracts.antt"):
            subprocess.run(["git", "mv", path, path.replace("Contracts.antt", "Promises.antt")], check=True)
    print(len(turn), "names turned")
    return 0


if __name__ == "__main__":
    sys.exit(main())
