#!/usr/bin/env python3
"""Respells this repository's own proof names as today's Rattle spells them.

usage: python3 tools/respell_names.py          rewrites crates/*/specs, crates/*/proofs and the clauses of crates/*/src
       python3 tools/respell_names.py --look   only says which new names stand elsewhere already

Run it once, right after the toolchain's own script. Definitions, lemmas, record fields and variables get underscores
for dashes; the two facts that are types get camel case. Names that the check makes (goals, steps) and names of
libraries keep their dashes.
"""
import collections
import glob
import re
import sys

CRATES = "sentences bands lines likeness tally keeper ring watch bedwatch".split()
# Facts are types, and types are in camel case. `keys-getD` speaks of a word that has another name today.
SPECIAL = {"Cut-right": "CutRight", "Cut-once": "CutOnce", "holds_of": "HoldsWindow", "keys-getD": "keys_get_or"}
NAME = re.compile(r"(?<![\w'\-])[A-Za-z][\w'\-]*")
SIGNATURE = re.compile(r"^( *)(?:abbrev )?(?:unfoldable )?(?:pub )?(?:abbrev )?([A-Za-z][\w'\-]*(?: [A-Za-z][\w'\-]*)*) : (goal\.)?")
USE = re.compile(r"^(?:ghost )?use ([\w.+'\-]+)\.\{(.*)\}")


def files():
    for crate in CRATES:
        yield from sorted(glob.glob(f"crates/{crate}/specs/**/*.antt", recursive=True))
        yield from sorted(glob.glob(f"crates/{crate}/proofs/**/*.antt", recursive=True))
        yield from sorted(glob.glob(f"crates/{crate}/src/**/*.rt", recursive=True))


def code_of(line):
    return re.sub(r"(^|\s)--.*", "", line)


def is_own(module):
    parts = module.split(".")
    return len(parts) > 2 and parts[0] == "Rattle" and parts[1] in CRATES


def collect():
    """The names defined here, the fields of records here, and the names that come from a library or the check."""
    own, fields, foreign = set(), set(), set()
    for path in files():
        if not path.endswith(".antt"):
            continue
        inside, depth = False, 0
        for line in map(code_of, open(path, encoding="utf-8")):
            use = USE.match(line)
            if use:
                names = [n.strip() for n in use.group(2).split(",")]
                made = use.group(1).endswith((".Goals", ".Given"))
                if made or not is_own(use.group(1)):
                    foreign.update(names)
                continue
            indent = len(line) - len(line.lstrip())
            head = re.match(r"^ *(?:abbrev )?(?:pub )?(record|data) ", line)
            if head:
                inside, depth = True, indent
            elif line.strip() and inside and indent <= depth:
                inside = False
            found = SIGNATURE.match(line)
            if found and found.group(3):
                foreign.update(found.group(2).split())
            elif found and not head:
                own.update(found.group(2).split())
                if inside:
                    fields.update(found.group(2).split())
            for bound in re.findall(r"\blet ([A-Za-z][\w'\-]*) ", line):
                own.add(bound)
            for bound in re.findall(r"[λ(] ?([A-Za-z][\w'\- ]*?)(?:\.| :)", line):
                own.update(n for n in bound.split() if n[0].isalpha())
    return own, fields, foreign


def new_spelling(name):
    return SPECIAL.get(name, name.replace("-", "_"))


def respell(text, own, fields):
    def change(match):
        name = match.group(0)
        dotted = match.start() > 0 and text[match.start() - 1] == "."
        # A name behind a dot is a field, or a definition behind the alias of a module, as in `Laws.reflexive`.
        if dotted and name not in fields and not re.search(r"[A-Z]\w*\.$", text[: match.start()]):
            return name
        return new_spelling(name) if name in own else name

    return NAME.sub(change, text)


def main():
    own, fields, foreign = collect()
    own = {n for n in own if new_spelling(n) != n} - foreign
    words = collections.defaultdict(set)
    for path in files():
        for line in open(path, encoding="utf-8"):
            for name in NAME.findall(code_of(line)):
                words[name].add(path)
    groups = collections.defaultdict(set)
    for name in own:
        groups[new_spelling(name)].add(name)
    for new in sorted(groups):
        if len(groups[new]) > 1:
            print(f"fall together: {sorted(groups[new])} as {new}")
        if new in words:
            print(f"stands already: {new} in {', '.join(sorted(words[new]))}")
    if "--look" in sys.argv:
        print(" ".join(sorted(own)))
        print("fields: " + " ".join(sorted(own & fields)))
        return
    for path in files():
        old = open(path, encoding="utf-8").read()
        text = respell(old, own, fields)
        if text != old:
            open(path, "w", encoding="utf-8").write(text)


if __name__ == "__main__":
    main()
