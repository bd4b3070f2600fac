#!/usr/bin/env python3
"""Lists places in crates/*/src that an older form of the language may have shaped, point by point (docs/DESIGN-PASS.md).

usage: tools/places.py [--counts]

A row is a place to look at, and no verdict: docs/DESIGN-PASS.md says which of them stay, and why. With --counts only how many
there are of each kind.
"""
import collections
import glob
import os
import re
import sys

TOP = os.path.join(os.path.dirname(os.path.abspath(__file__)), "..")
WORD = re.compile(r"[A-Za-z_][A-Za-z_0-9]*|\d[\d_]*|b?\"(?:[^\"\\]|\\.)*\"|b?'(?:[^'\\]|\\.)'|\S")
KEEP = set("if else match for in while loop return let mut fn struct enum impl self Self true false break continue as ref "
           "pub crate where dyn const use Some None Ok Err Option Result Vec String bool u8 u32 u64 usize i64 str".split())


def sources():
    for path in sorted(glob.glob(os.path.join(TOP, "crates", "*", "src", "**", "*.rt"), recursive=True)):
        with open(path, encoding="utf-8") as file:
            text = file.read()
        # comments are blanked, so that lines keep their numbers
        yield os.path.relpath(path, TOP), re.sub(r"//[^\n]*", "", text)


def line_of(text, at):
    return text.count("\n", 0, at) + 1


def found(name, pattern, flags=re.M):
    for path, text in sources():
        for hit in re.finditer(pattern, text, flags):
            at = hit.start() + len(hit.group(0)) - len(hit.group(0).lstrip())
            yield name, path, line_of(text, at), " ".join(hit.group(0).split())[:90]


def block(text, at):
    """The text from the brace at `at` to the one that closes it."""
    depth = 0
    for i in range(at, len(text)):
        if text[i] == "{":
            depth += 1
        elif text[i] == "}":
            depth -= 1
            if depth == 0:
                return text[at:i + 1]
    return text[at:]


FN = re.compile(r"^[ \t]*(?:pub(?:\(crate\))? )?(?:const )?fn (\w+)(?:<[^>]*>)?\(([^)]*)\)([^\n{]*)\n?((?:\s+(?:requires|ensures)[^\n]*\n)*)\s*\{", re.M)


def functions():
    for path, text in sources():
        for hit in FN.finditer(text):
            body = block(text, hit.end() - 1)
            yield path, line_of(text, hit.start()), hit.group(1), hit.group(2), hit.group(3), hit.group(4), body


def shape(body, strict):
    """The body with each name of its own replaced by the number of its first appearance; numbers and strings by one mark."""
    seen, out = {}, []
    for word in WORD.findall(body):
        if word[0].isdigit() or word[0] in "\"'" or word[:2] in ("b\"", "b'"):
            out.append("#")
        elif (word[0].isalpha() or word[0] == "_") and word not in KEEP:
            out.append(word if strict else "n%d" % seen.setdefault(word, len(seen)))
        else:
            out.append(word)
    return " ".join(out)


def own_results():
    for path, text in sources():
        for hit in re.finditer(r"^(?:pub(?:\(crate\))? )?enum (\w+) (\{)", text, re.M):
            body = block(text, hit.start(2))[1:-1]
            kinds = re.findall(r"^\s{4}([A-Z]\w*)\s*([({,]|$)", body, re.M)
            with_value = [k for k in kinds if k[1] in "({" and k[1]]
            if 2 <= len(kinds) <= 3 and len(with_value) <= 1:
                yield "own enum of two or three cases, at most one with a value", path, line_of(text, hit.start()), \
                    hit.group(1) + ": " + ", ".join(k[0] for k in kinds)


def point_1():
    yield from own_results()
    yield from found("a flag with its value beside it", r"^.*(?:Next::Sent =>|[!=]= Next::Nothing|= Next::Sent\b).*$")
    for path, line, name, _, result, _, body in functions():
        if "-> u8" in result and body.split() == ["{", "0", "}"]:
            yield "a number that says nothing", path, line, name
    yield from found("a number as an error", r"Result<[^<>]*(?:<[^<>]*>)?, (?:u8|u16|u32|u64|usize)>")
    yield from found("an error handed on by hand", r"^.*\b(?:Err\(\w*\)|None) => return (?:Ok\()?Err\(.*$|if let Err\(\w+\) = [^\n]*\{\n\s*return [^\n]*")
    yield from found("let .. else that ? would say", r"let (?:mut )?(?:Some|Ok)\([^\n]*\) = [^;{]*else \{\s*return (?:Err\([^;]*|None);\s*\};")
    yield from found("whether it was done, as a bool", r"fn \w+\(&mut self[^)]*\) -> bool")


def point_2():
    same, twice = {}, set()
    for path, line, name, params, _, _, body in functions():
        key = (params, body)
        if len(WORD.findall(body)) >= 5 and key in same and same[key][0] != path:
            twice.add((path, line))
            yield "a function that stands elsewhere too", path, line, "%s ~ %s (%s)" % ((name,) + same[key][1::-1])
        same.setdefault(key, (path, name))
    groups = collections.defaultdict(list)
    for path, line, name, params, _, _, body in functions():
        if len(body.split("\n")) >= 4 and len(WORD.findall(body)) >= 14 and (path, line) not in twice:
            groups[shape(params + body, False)].append((path, line, name))
    for group in groups.values():
        for path, line, name in group[1:]:
            yield "a function of the shape of another", path, line, "%s ~ %s (%s)" % (name, group[0][2], group[0][0])
    types = {}
    for path, text in sources():
        for hit in re.finditer(r"^(?:pub(?:\(crate\))? )?struct (\w+)(?:<[^>]*>)? (\{)", text, re.M):
            fields = tuple(re.findall(r"^\s{4}(?:pub(?:\(crate\))? )?(\w+: [^\n]*),$", block(text, hit.start(2)), re.M))
            if len(fields) >= 2 and fields in types:
                yield "a type with the fields of another", path, line_of(text, hit.start()), "%s ~ %s (%s)" % ((hit.group(1),) + types[fields])
            types.setdefault(fields, (hit.group(1), path))


def point_3():
    yield from found("while or loop", r"^\s*(?:while\b.*|loop \{)$")
    yield from found("turns counted beside a place", r"^\s*for _\w* in .*$")
    yield from found("an index counted", r"^\s*for (?!_)\w+ in [^\n]*\.\.[^\n]*\{$")


def point_4():
    yield from found("equality, order, copying or showing written out", r"^impl(?:<[^>]*>)? (?:PartialEq|Eq|PartialOrd|Ord|Clone|Copy|Debug|Default|Display)\b[^\n]*")
    for path, line, name, _, _, _, body in functions():
        inner = " ".join(body[1:-1].split())
        if re.fullmatch(r"\*?\w+ == \*?\w+", inner):
            yield "a function that is ==", path, line, "%s: %s" % (name, inner)
        arms = re.findall(r"=> (?:b?\"[^\"]*\"|\d+|b'.'),", body)
        if len(arms) >= 3 and re.match(r"\{\s*match \*?(self|\w+) \{", body) and body.count("=>") - len(arms) <= 1:
            yield "a table from cases to texts or numbers", path, line, "%s: %d cases" % (name, len(arms))
        for copy in re.finditer(r"(\w+): (\w+(?:\.\w+)?)\.\1,\s*(\w+): \2\.\3,", body):
            yield "fields copied one by one", path, line, "%s: %s" % (name, copy.group(0)[:60].replace("\n", " "))
            break
        if re.search(r"let mut (\w+) = (?:self|\w+);\s*(?:\1\.\w+(?:\[[^\]]*\])? = [^;]*;\s*)+(?:Ok\(|Some\()?\1\)?\s*\}", body):
            yield "a copy changed field by field", path, line, name


def point_5():
    crates = collections.defaultdict(list)
    for path, line, name, params, _, clauses, _ in functions():
        given = frozenset(" ".join(p.split()) for p in params.split(",") if ":" in p)
        crates[path.split("/")[1]].append((path, line, name, given, clauses))
    for crate, fns in sorted(crates.items()):
        together = collections.Counter()
        for _, _, _, given, _ in fns:
            for other in fns:
                both = given & other[3]
                if len(both) >= 3:
                    together[both] += 1
        best = {}
        for group in together:
            users = [f for f in fns if group <= f[3]]
            if len(users) >= 3:
                best[group] = users
        for group, users in best.items():
            if not any(group < other and len(best[other]) >= len(users) for other in best):
                yield "parameters that travel together", users[0][0], users[0][1], "%d functions: %s" % (len(users), ", ".join(sorted(group)))
        facts = collections.Counter()
        for _, _, _, _, clauses in fns:
            for fact in set(re.findall(r"(?:requires|ensures)\*? ?\w* ?\{ ([^=]*?) \}", clauses)):
                if "≡" not in fact and "result" not in fact:
                    facts[fact] += 1
        for fact, many in facts.items():
            if many >= 3:
                yield "a fact in three or more contracts", "crates/" + crate, 0, "%d functions: %s" % (many, fact)


def point_6():
    for path, text in sources():
        for hit in re.finditer(r"^(?:pub(?:\(crate\))? )?struct (\w+)(?:<[^>]*>)? (\{)", text, re.M):
            body = block(text, hit.start(2))
            if re.search(r": \[[^\]]*; \d+\]", body) and re.search(r"\b(?:count|len|start|many|\w+_count): (?:usize|u8)", body):
                yield "an array with a count beside it", path, line_of(text, hit.start()), hit.group(1)
    for path, line, name, params, _, _, _ in functions():
        if re.search(r": &?(?:mut )?\[[^\]]*; \d+\]", params) and re.search(r"\b(?:\w+_)?count: usize", params):
            yield "an array and its count as parameters", path, line, name
    yield from found("a search by hand", r"binary_search|\blow(?:er)?\b.*\bhigh(?:er)?\b.*/ 2")


def point_7():
    for path, line, name, params, _, _, _ in functions():
        flags = re.findall(r"(\w+): bool", params)
        if flags:
            yield "a flag that chooses", path, line, "%s: %s" % (name, ", ".join(flags))
    yield from found("a table of functions", r"\[(?:fn\(|&dyn|Box<dyn)")
    yield from found("an enum whose cases are tests", r"enum Question\b")


def point_8():
    for path in sorted(glob.glob(os.path.join(TOP, "crates", "*", "proofs", "**", "*.antt"), recursive=True)):
        where = os.path.relpath(path, TOP)
        if os.path.basename(path) != "Lib.antt":
            with open(path, encoding="utf-8") as file:
                lines = len([l for l in file if l.strip()])
            kind = "answers" if path.endswith("Answers.antt") else "lemmas"
            yield kind, where, lines, "%d lines" % lines


def main():
    counts = "--counts" in sys.argv[1:]
    for number, point in enumerate((point_1, point_2, point_3, point_4, point_5, point_6, point_7, point_8), 1):
        kinds = collections.defaultdict(list)
        for kind, path, line, text in point():
            kinds[kind].append((path, line, text))
        print("point %d: %d" % (number, sum(len(rows) for rows in kinds.values())))
        for kind, rows in kinds.items():
            print("  %s: %d" % (kind, len(rows)))
            if not counts and number < 8:
                for path, line, text in rows:
                    print("    %s:%d  %s" % (path, line, text))


main()
