#!/usr/bin/env python3
"""Brings the definitions and lemmas of specs/ and proofs/ to today's spelling: snake case, with no dashes between plain words.

usage: python3 tools/respell.py        at the top of the repository, once, right after the kit's port.py

A word in camel case (`standingOf`) and a name of words joined by dashes (`first-only`) become snake case. A lemma that would then
have a function's name ends in `_lem`. Types keep their names. So do the goals that the checker makes, names of the library, all
of src/'s own names, strings, and what stands in other files. It prints each name and its new one, and those that fall together.
"""
import collections
import glob
import os
import re
import sys

NAME = r"[A-Za-z][\w'-]*"
DEFINED = re.compile(r"^(\s*)((?:abbrev |pub |unfoldable |ghost )*)(data |record )?(" + NAME + r") :(?=\s|$)")
RESERVED = set("data record deriving module where use mod pub package open as unfoldable abbrev axiom unfold unfolding ruleset mutual infix infixl infixr elim let in do Type".split())


def files(*ends):
    for end in ends:
        for p in sorted(glob.glob("crates/*/**/*" + end, recursive=True)):
            if "/out/" not in p:
                yield p


def snake_part(s):
    if not s or s[0].isupper():
        return s
    s = re.sub(r"([a-z0-9])([A-Z])", r"\1_\2", s)
    s = re.sub(r"([A-Z])([A-Z][a-z])", r"\1_\2", s)
    return s.lower()


def snake(n):
    return "_".join(snake_part(p) for p in n.split("-"))


def split_strings(line):
    """Pieces of a line, the odd ones being string literals."""
    return re.split(r'("(?:[^"\\]|\\.)*")', line)


def main():
    kinds = collections.defaultdict(set)
    type_valued = set()
    for p in files(".antt"):
        answers = os.path.basename(p) in ("Answers.antt", "Invariants.antt", "Choices.antt", "Given.antt")
        for line in open(p, encoding="utf-8"):
            if line.lstrip().startswith("--"):
                continue
            m = DEFINED.match(line)
            if not m:
                continue
            indent, marks, kind, name = m.groups()
            if re.search(r": (goal|given|need|choice)s?\.", line):
                continue
            if answers and marks and re.match(r"(returns|loop-|overflow|invariant-|decreases-|index|sub|range|.*-requires)", name):
                continue
            if name in RESERVED:
                continue
            kinds[name].add("spec" if "/specs/" in p else "proof")
            if re.search(r"→ Type 0\s*$|: Type 0\s*$", line):
                type_valued.add(name)
    # other names that an import is given
    for p in files(".antt", ".rt"):
        for line in open(p, encoding="utf-8"):
            if re.match(r"\s*(?:ghost )?use ", line):
                for name in re.findall(r" as (" + NAME + ")", line):
                    kinds[name].add("spec")
    # names that src/ itself has
    source = set()
    for p in files(".rt"):
        for line in open(p, encoding="utf-8"):
            line = line.split("//")[0]
            for m in re.finditer(r"\b(?:fn|const|static|struct|enum|mod|let|let mut)\s+(\w+)", line):
                source.add(m.group(1))
            for m in re.finditer(r"(?:^\s*|pub(?:\(crate\))? |[(,{] ?)(?:mut )?(\w+): ", line):
                source.add(m.group(1))
    table = {}
    taken = collections.defaultdict(list)
    wanted = {n: snake(n) for n in kinds}
    for n in sorted(kinds, key=lambda n: ("spec" not in kinds[n], "-" in n, n)):
        new = wanted[n]
        if n[0].isupper() and "-" not in n:
            new = n
        while new in taken or new in RESERVED:
            new += "_lem" if not new.endswith("_lem") else "'"
        taken[new].append(n)
        if new != n:
            table[n] = new
    if not table:
        table["nothing-to-do"] = "nothing_to_do"
    pattern = re.compile(r"(?<![\w'\-◌«])(" + "|".join(sorted(map(re.escape, table), key=len, reverse=True)) + r")(?![\w'\-◌])")

    def turn(text, skip):
        return pattern.sub(lambda m: m.group(1) if m.group(1) in skip else table[m.group(1)], text)

    library = re.compile(r"^\s*(?:ghost )?use (?:Rattle\.std|mathlib|native|Prim|lib|borrow|logic|core)[\w.]*\.\{([^}]*)\}")

    def read(p):
        """The lines of a file, and the library's names in it, which stay."""
        lines = open(p, encoding="utf-8").read().split("\n")
        imports = [m for m in map(library.match, lines) if m]
        return lines, {w.split(" as ")[0].strip() for m in imports for w in m.group(1).split(",")}

    def write(p, old, new):
        if new != old:
            open(p, "w", encoding="utf-8").write("\n".join(new))

    def import_of(line):
        """A line that takes from the library: only what it calls things by may be ours."""
        return re.sub(r" as (" + NAME + ")", lambda m: " as " + table.get(m.group(1), m.group(1)), line)

    def code_of(line, skip):
        return "".join(q if k % 2 else turn(q, skip) for k, q in enumerate(split_strings(line)))

    for p in files(".antt"):
        lines, skip = read(p)
        out = []
        for line in lines:
            if library.match(line):
                out.append(import_of(line))
            else:
                out.append(code_of(line, skip))
        write(p, lines, out)
    for p in files(".rt"):
        lines, skip = read(p)
        out, depth = [], 0
        for line in lines:
            begins = re.match(r"\s*(requires|ensures|ghost)\b", line)
            if library.match(line):
                out.append(import_of(line))
            elif begins or depth > 0:
                depth = max(depth + line.count("{") - line.count("}"), 0)
                out.append(code_of(line, skip))
            else:
                # comments name definitions too
                at = line.find("//")
                words = [n for n in table if "-" not in n]
                if words and at >= 0 and '"' not in line[:at]:
                    comment = re.sub(r"\b(" + "|".join(map(re.escape, words)) + r")\b", lambda m: table[m.group(1)], line[at:])
                    line = line[:at] + comment
                out.append(line)
        write(p, lines, out)
    # a fact that had a word's spelling
    for p in ("crates/journal/specs/Readings.antt", "crates/journal/src/reading.rt"):
        text = open(p, encoding="utf-8").read()
        text = re.sub(r"(?<![.\w])used(?= (?:result|\(Whole|Short|Damaged|:)|\};)", "Uses", text)
        open(p, "w", encoding="utf-8").write(text)
    print("used -> Uses (a fact of journal)")
    for n in sorted(table):
        print(n, "->", table[n], "" if table[n] == wanted.get(n, table[n]) else "(fell together)", "(names something in src/ too)" if table[n] in source else "", "(a type)" if n in type_valued else "")


if __name__ == "__main__":
    sys.exit(main())
