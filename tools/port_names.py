#!/usr/bin/env python3
"""Respells this repository's own definitions and lemmas as today's Rattle spells them; run once at the top, after the kit's port.py.

Definitions, fields and constructors are in snake case (`keptBelow` is `kept_below`, `kept-most` is `kept_most`). In a lemma's name a dash joins
two names, and a plain word is added with `_` (`ran-later` is `ran_later`, `kept_below-snoc` stays). Names of functions and types of src/, goals,
strings, inputs and outputs keep theirs. It stops where two names would fall together.

    port_names.py [--list]
"""

import collections
import os
import re
import sys

ID = re.compile(r"(?<![\w'◌\-·])[A-Za-z_◌][\w'◌\-]*")
DEFINED = re.compile(r"^(\s*)((?:abbrev |unfoldable |pub |mutual )*)(data |record )?([A-Za-z][\w'◌\-]*)(?: \([^:]*:.*\)| \{[^:]*:.*\})* :(?: |$)")
# Operations that a lemma is about, beside the repository's own definitions: the second half of a name that a dash joins.
OPERATIONS = set("append snoc cons nil drop take set filter map length zero suc concat replicate reverse get_or sub add mul div mod pow le lt".split())
WORDS = {"field", "constructor", "spec word", "lemma word", "local word", "spec"}
# Names that would fall together with another name, and what they are called instead.
INSTEAD = {
    "noAsk": "has_no_ask",
    "noBid": "has_no_bid",
    "table-after": "table_next",
    "is-call": "is_a_call",
}
# Lemmas that have the name that a definition gets: only in .antt files.
LEMMAS = {f"{name}": f"{name}_lem" for name in ("best_key", "count_at", "kept_in", "back_at", "all_digits", "best_of", "is_live", "in_place")}
# A definition that has the name of a tactic: in .antt files and in clauses.
CLAUSES = {"first_of": "first_of_two"}
CLAUSE = re.compile(r"(?<![\w.'◌\-·])first_of(?![\w'◌\-(])")
LEMMA = re.compile(r"(?<![\w.'◌\-·])(?:" + "|".join(LEMMAS) + r")(?![\w'◌\-])")


def files():
    for folder, dirs, names in os.walk("crates"):
        dirs[:] = sorted(d for d in dirs if d != "out")
        for name in sorted(names):
            if name.endswith((".antt", ".rt", ".edit")):
                yield os.path.join(folder, name)


def read(path):
    with open(path, encoding="utf-8") as f:
        return f.read()


def uncommented(path, text):
    return re.sub(r"--[^\n]*" if path.endswith(".antt") else r"//[^\n]*", "", text)


def defined(paths):
    """name -> kinds: spec, lemma, local (in a function's folder), type, field, constructor"""
    kinds = collections.defaultdict(set)
    for path in paths:
        if not path.endswith(".antt"):
            continue
        where = "spec" if "/specs/" in path else "local" if path.count("/") > 3 else "lemma"
        inside, depth = None, 0
        for line in uncommented(path, read(path)).split("\n"):
            m = DEFINED.match(line)
            indent = len(line) - len(line.lstrip())
            if m and m[3]:
                kinds[m[4]].add("type")
                inside, depth = m[3].strip(), indent
            elif m and inside and indent > depth:
                kinds[m[4]].add("field" if inside == "record" else "constructor")
            elif m:
                inside = None
                kinds[m[4]].add(where + (" word" if re.search("abbrev|unfoldable", m[2]) else ""))
            elif line.strip() and inside and indent <= depth:
                inside = None
    return kinds


def snake(word):
    word = re.sub(r"(?<=[a-z0-9])([A-Z])(?=[A-Z]*(?:[^a-zA-Z]|$))", lambda m: "_" + m[1], word)
    return re.sub(r"(?<=[a-z0-9])([A-Z])", lambda m: "_" + m[1].lower(), word).lower() if re.match(r"[a-z]", word) else word


def renamed(name, kinds, words):
    parts = [snake(p) for p in name.split("-")]
    if kinds & WORDS:
        return "_".join(parts)
    if kinds <= {"local"}:
        return "-".join(parts)
    out = parts[0]
    for before, after in zip(parts, parts[1:]):
        joined = (out in words or before in words) and (after in words or after in OPERATIONS)
        out += ("-" if joined else "_") + after
    return out


def camel(name, out):
    """the names in camel case that are spelled as this one without its dashes"""
    parts = name.split("-")
    return {parts[0] + "".join(p[:1].upper() + p[1:] for p in parts[1:])} & set(out)


def names(paths):
    kinds = defined(paths)
    functions = {f for p in paths if p.endswith(".rt") for f in re.findall(r"\bfn (\w+)", read(p))}
    words = {snake(n) for n, k in kinds.items() if k & {"spec word", "lemma word", "type"} and "-" not in n}
    goals = {g for p in paths if p.endswith(".antt") for g in re.findall(r"^([\w\-]+) : tie\.", read(p), re.M)}
    out = {}
    for name, k in kinds.items():
        if "type" in k or name in goals or name in functions or not re.match(r"[a-z]", name) or "◌" in name:
            continue
        new = INSTEAD.get(name) or renamed(name, k, words)
        if new != name:
            out[name] = new
    # a lemma that would have its function's name
    for name, new in out.items():
        if "-" in name and not kinds[name] & WORDS and (new in kinds or any(out.get(n) == new for n in camel(name, out))):
            out[name] = new + "_lem"
    return out, sorted(clashes(paths, out, functions))


def clashes(paths, out, functions):
    """Where a file would call two things by one name. A function of src/ may be called as the definition that says what it returns."""
    for path in paths:
        text = LEMMA.sub(lambda m: LEMMAS[m[0]], re.sub(r"\buse [\w.+]+\.\{|\buse [\w:.]+;?", "", uncommented(path, read(path)))) if path.endswith(".antt") else re.sub(r"\b\w+::", "", uncommented(path, read(path)))
        used, olds = set(re.findall(r"(?<!\.)" + ID.pattern, text)), {}
        for name in sorted(used & set(out)):
            new = out[name]
            taken = new in used and not (path.endswith(".rt") and new in functions and not re.search(rf"\b{new}\b *:", text))
            if taken or new in olds:
                yield f"{path}: {olds.get(new, '')} {name} -> {new}"
            olds[new] = name


def imported(text, own):
    """the names that a file takes from the kit, which keep their spelling there"""
    kits = re.findall(r"^(?:ghost )?use (?!Rattle\.(?:%s)\.)[\w.]+\.\{([^}]*)\}" % "|".join(own), text, re.M)
    return {n.split(" as ")[0].strip() for line in kits for n in line.split(",")}


def main():
    paths = list(files())
    out, bad = names(paths)
    if "--list" in sys.argv:
        for name, new in sorted(out.items()):
            print(name, new)
    for line in bad:
        print("falls together:", line)
    if bad or "--list" in sys.argv:
        sys.exit(bool(bad))
    functions = {f for p in paths if p.endswith(".rt") for f in re.findall(r"\bfn (\w+)", read(p))}

    def put(m, local):
        # a step of a function's proof is named after a function of src/, which keeps its spelling
        if local and m.string[m.start() - 1 : m.start()] == "." and m[0].replace("-", "_") in functions:
            return m[0].replace("-", "_")
        return out.get(m[0], m[0])

    own = {name for name in os.listdir("crates")}
    for path in paths:
        text = read(path)
        kits = imported(text, own)
        new = LEMMA.sub(lambda m: LEMMAS[m[0]], text) if path.endswith(".antt") else text
        proof = path.endswith(".antt")
        new = "\n".join(CLAUSE.sub(lambda m: CLAUSES[m[0]], l) if proof or re.match(r"ghost use|\s+(requires|ensures)", l) else l for l in new.split("\n"))
        local = "/proofs/" in path and path.count("/") > 3
        new = ID.sub(lambda m: m[0] if m[0] in kits else put(m, local), new)
        if new != text:
            with open(path, "w", encoding="utf-8") as f:
                f.write(new)


main()
