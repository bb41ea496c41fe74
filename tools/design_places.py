#!/usr/bin/env python3
"""Prints the places of src/ that older Rattle shaped, as candidates for a better form: `point N: file:line: what`, with counts at the end.

    design_places.py [--point N]..

They are found by text, so some are false: each is to be read. The points are those of docs/DESIGN-PASS.md:

1  own enums and structs of the shape of Option or Result, numbers for kinds and refusals
2  functions with the same body but for names, types and numbers
3  loops that raise a counter by hand
4  equality, order, copying, conversion and printing written by hand
5  clauses in three or more functions, parameters that travel together
6  lengths beside slices, slices of one length, searches by hand
7  a match or a chain of tests on a number that chooses a call
"""

import collections
import dataclasses
import itertools
import pathlib
import re
import sys
from collections.abc import Iterator

Place = tuple[int, str, int, str]
WORD = re.compile(r"[A-Za-z_◌][\w'◌]*")
KEYWORDS = set("if else while loop for in match return let mut fn pub as true false break continue self Self ref move struct enum impl const".split())
INTEGERS = "u8|u16|u32|u64|usize|i8|i16|i32|i64|isize"


@dataclasses.dataclass(frozen=True)
class Function:
    file: str
    line: int
    name: str
    result: str
    params: tuple[tuple[str, str], ...]
    clauses: tuple[str, ...]
    body: str
    body_line: int

    def line_in(self, at: int) -> int:
        return self.body_line + self.body.count("\n", 0, at)


@dataclasses.dataclass(frozen=True)
class Item:
    kind: str
    file: str
    line: int
    name: str
    body: str


def blank(text: str) -> str:
    """The text with comments and what strings hold as spaces, each line as long as it was."""

    def spaces(m: re.Match[str]) -> str:
        return re.sub(r"[^\n]", " ", m[0]) if m[0].startswith("//") else m[0][0] + " " * (len(m[0]) - 2) + m[0][-1]

    return re.sub(r'//[^\n]*|"(?:\\.|[^"\\])*"|(?<=b)\'(?:\\.|[^\'\\])\'', spaces, text)


def end_of(text: str, start: int) -> int:
    """Behind the bracket that closes the one at the start."""
    depth = 0
    for i in range(start, len(text)):
        if text[i] in "([{":
            depth += 1
        elif text[i] in ")]}":
            depth -= 1
            if depth == 0:
                return i + 1
    return len(text)


def parts(text: str) -> list[str]:
    """What the commas outside of brackets separate."""
    found: list[str] = []
    depth, last = 0, 0
    for i, c in enumerate(text):
        depth += (c in "([{<") - (c in ")]}") - (c == ">" and text[i - 1] not in "-=")
        if c == "," and depth == 0:
            found.append(text[last:i])
            last = i + 1
    return [" ".join(p.split()) for p in [*found, text[last:]] if p.strip()]


def function(text: str, file: str, m: re.Match[str]) -> Function | None:
    at = m.end()
    if text[at] == "<":
        at = text.index("(", at)
    end = end_of(text, at)
    params: list[tuple[str, str]] = []
    for p in parts(text[at + 1 : end - 1]):
        name, _, kind = p.partition(":")
        params.append((name.replace("mut ", "").strip(), re.sub(r"'\w+ ?", "", kind.strip())))
    stop = re.compile(r"\b(?:requires|ensures)\b\*?[^{\n]*\{|\{|;").search(text, end)
    if stop is None:
        return None
    result = " ".join(text[end : stop.start()].removeprefix(" ->").split())
    clauses = []
    while stop is not None and stop[0] not in "{;":
        behind = end_of(text, stop.end() - 1)
        clauses.append(" ".join((stop[0].split()[0] + " " + text[stop.end() : behind - 1]).split()))
        stop = re.compile(r"\b(?:requires|ensures)\b\*?[^{\n]*\{|\{|;").search(text, behind)
    if stop is None or stop[0] == ";":
        return None
    body = text[stop.end() : end_of(text, stop.start()) - 1]
    line, body_line = (text.count("\n", 0, i) + 1 for i in (m.start(1), stop.end()))
    return Function(file, line, m[1], result, tuple(params), tuple(clauses), body, body_line)


def read() -> tuple[list[Function], list[Item]]:
    functions: list[Function] = []
    items: list[Item] = []
    for path in sorted(pathlib.Path("crates").glob("*/src/**/*.rt")):
        if "out" in path.parts:
            continue
        file, text = str(path), blank(path.read_text())
        for m in re.finditer(r"\bfn (\w+)(?=[(<])", text):
            found = function(text, file, m)
            if found is not None:
                functions.append(found)
        for m in re.finditer(r"\b(enum|struct) (\w+)[^{;(]*\{", text):
            body = text[m.end() : end_of(text, m.end() - 1) - 1]
            items.append(Item(m[1], file, text.count("\n", 0, m.start()) + 1, m[2], body))
    return functions, items


def shapes(functions: list[Function], items: list[Item]) -> Iterator[Place]:
    """Point 1."""
    for e in items:
        cases = parts(e.body)
        names = [re.sub(r"[ ({].*", "", c) for c in cases]
        holding = [c for c in cases if "(" in c or "{" in c]
        refused = [c for c in cases if "Refus" in c]
        if e.kind == "enum" and (0 < len(holding) < len(cases) or refused):
            yield 1, e.file, e.line, f"enum {e.name} {{{', '.join(names)}}}"
        if e.kind == "struct":
            fields = [c for c in cases if not c.startswith("ghost ")]
            flags = [f.removeprefix("pub ") for f in fields if re.search(r": bool$|Refusal\b|\b(?:refusal|kind|code|cause): u\d+$", f)]
            if flags and len(fields) > 1:
                yield 1, e.file, e.line, f"struct {e.name}: {', '.join(flags)} beside {len(fields) - len(flags)} values"
    for f in functions:
        for name, kind in f.params:
            if re.fullmatch(r"refusal|kind|code|cause|answer", name) and re.fullmatch(r"u\d+", kind):
                yield 1, f.file, f.line, f"{f.name}({name}: {kind})"
        if re.fullmatch(r"u8|u16|u32", f.result) and re.search(r"refus|kind|code|cause", f.name):
            yield 1, f.file, f.line, f"{f.name} -> {f.result}"


def skeleton(body: str) -> str:
    names: dict[str, str] = {}

    def name(m: re.Match[str]) -> str:
        return m[0] if m[0] in KEYWORDS else names.setdefault(m[0], f"n{len(names)}")

    return " ".join(re.sub(r"[A-Za-z_]\w*", name, re.sub(r"\b\d\w*", "0", body)).split())


def twins(functions: list[Function]) -> Iterator[Place]:
    """Point 2. A body of a call or two says little, so those of fewer than 12 words are left out."""
    groups: dict[str, list[Function]] = collections.defaultdict(list)
    for f in functions:
        if len(WORD.findall(f.body)) >= 12:
            groups[skeleton(f.body)].append(f)
    for group in groups.values():
        if len(group) > 1:
            others = ", ".join(f"{g.file.split('/')[1]}::{g.name}" for g in group[1:])
            yield 2, group[0].file, group[0].line, f"{group[0].name} as {others}"


def counters(functions: list[Function]) -> Iterator[Place]:
    """Point 3."""
    for f in functions:
        for m in re.finditer(r"\b(while|loop)\b[^{]*\{", f.body):
            inner = f.body[m.end() : end_of(f.body, m.end() - 1)]
            raised = re.findall(r"\b(\w+) \+= ([^;]+);|\b(\w+) = (\3 \+ [^;]+);", inner)
            what = ", ".join(f"{a or c} += {b or d.removeprefix(c + ' + ')}" for a, b, c, d in raised)
            yield 3, f.file, f.line_in(m.start()), f"{f.name}: {m[1]}{': ' + what if what else ', no counter is raised in it'}"


def indexed(functions: list[Function]) -> Iterator[Place]:
    """Point 3: a `for` over places whose body only reads one slice there."""
    for f in functions:
        for m in re.finditer(r"\bfor (\w+) in 0\.\.(\w+)\.len\(\) \{", f.body):
            inner = f.body[m.end() : end_of(f.body, m.end() - 1)]
            if re.search(rf"\b{m[2]}\[{m[1]}\]", inner):
                yield 3, f.file, f.line_in(m.start()), f"{f.name}: for {m[1]} in 0..{m[2]}.len(), with {m[2]}[{m[1]}]"


def by_hand(functions: list[Function]) -> Iterator[Place]:
    """Point 4."""
    for f in functions:
        body = " ".join(f.body.split())
        said = f"{f.name}: {body[:70]}"
        if re.search(r"^(to|from|of)_|_(to|from|of)$|^number$|^code$", f.name):
            yield 4, f.file, f.line, f"conversion {f.name}"
        elif re.fullmatch(rf"[\w.]+ as (?:{INTEGERS})|{{? ?[\w.]+\.0 ?}}?", body):
            yield 4, f.file, f.line, f"cast {said}"
        elif re.fullmatch(r"\(?[\w.]+ (?:==|!=|<|<=|>|>=) [\w.]+\)?", body) and ".0" in body:
            yield 4, f.file, f.line, f"comparison {said}"
        elif f.result == "bool" and re.match(r"(?:is_)?(?:same|equal|eq)\w*$", f.name):
            yield 4, f.file, f.line, f"equality {said}"
        elif len(f.params) == 1 and re.fullmatch(rf"{f.result} \{{[^{{}}]*\}}", body) and body.count(f.params[0][0] + ".") > 1:
            yield 4, f.file, f.line, f"copy {said}"
        elif re.search(r"print_decimal|print_hex|% 10\b|b.0. \+", body):
            yield 4, f.file, f.line, f"printing {said}"


def by_place(f: Function, clause: str) -> str:
    places = {name: f"${i}" for i, (name, _) in enumerate(f.params)}
    return re.sub(r"[A-Za-z_][\w']*", lambda m: places.get(m[0], m[0]), clause)


def together(functions: list[Function]) -> Iterator[Place]:
    """Point 5."""
    clauses: dict[str, list[Function]] = collections.defaultdict(list)
    groups: dict[tuple[tuple[str, str], ...], list[Function]] = collections.defaultdict(list)
    for f in functions:
        for c in dict.fromkeys(by_place(f, c) for c in f.clauses):
            clauses[c].append(f)
        for pair in itertools.combinations(f.params, 2):
            groups[pair].append(f)
    for clause, fs in clauses.items():
        if len(fs) > 2:
            yield 5, fs[0].file, fs[0].line, f"clause in {len(fs)} functions: {clause}"
    # Pairs that stand in the same functions are one group.
    merged: dict[tuple[Function, ...], dict[tuple[str, str], None]] = collections.defaultdict(dict)
    for pair, fs in groups.items():
        if len(fs) > 2:
            merged[tuple(fs)].update(dict.fromkeys(pair))
    for where, params in merged.items():
        names = ", ".join(f.name for f in where[:4]) + (" .." if len(where) > 4 else "")
        yield 5, where[0].file, where[0].line, f"together in {len(where)} functions: {', '.join(': '.join(p) for p in params)} ({names})"


def lengths(functions: list[Function]) -> Iterator[Place]:
    """Point 6."""
    for f in functions:
        slices = [n for n, k in f.params if re.match(r"&(?:mut )?\[", k)]
        counts = [n for n, k in f.params if k == "usize" and re.fullmatch(r"n|m|len|length|count|size|end|used|held|filled|room", n)]
        if slices and counts:
            yield 6, f.file, f.line, f"{f.name}: {', '.join(counts)} beside {', '.join(slices)}"
        arrays = [n for n, k in f.params if re.match(r"\[.*; \w+\]$", k)]
        if arrays and counts:
            yield 6, f.file, f.line, f"{f.name}: {', '.join(counts)} beside the array {', '.join(arrays)}"
        for c in f.clauses:
            tied = {n for n in slices if re.search(rf"length {n}\b", c)}
            if len(tied) > 1 and c.startswith("requires"):
                yield 6, f.file, f.line, f"{f.name}: lengths of {', '.join(sorted(tied))} in a clause"
                break
        if re.search(r"\b(?:while|for|loop)\b", f.body) and re.search(r"find|search|place_of|index_of|position", f.name):
            yield 6, f.file, f.line, f"search {f.name}"


def switches(functions: list[Function]) -> Iterator[Place]:
    """Point 7."""
    for f in functions:
        for m in re.finditer(r"\bmatch [^{]*\{", f.body):
            inner = f.body[m.end() : end_of(f.body, m.end() - 1)]
            arms = re.findall(r"(?m)^\s*\d+ => (?:return )?[\w:]+\(", inner)
            if len(arms) > 1:
                yield 7, f.file, f.line, f"{f.name}: match with {len(arms)} calls"
        tests = collections.Counter(re.findall(r"\bif \(?(\w+) == \d+\)? \{\s*(?:return )?[\w:]+\(", f.body))
        for name, n in tests.items():
            if n > 1:
                yield 7, f.file, f.line, f"{f.name}: {n} tests of {name} that choose a call"


def main(args: list[str]) -> int:
    wanted = {int(n) for flag, n in zip(args, args[1:]) if flag == "--point"} or set(range(1, 8))
    if any(a == "--help" or (a.startswith("-") and a != "--point") for a in args):
        print(__doc__)
        return 0 if "--help" in args else 2
    functions, items = read()
    places = [
        *shapes(functions, items),
        *twins(functions),
        *counters(functions),
        *indexed(functions),
        *by_hand(functions),
        *together(functions),
        *lengths(functions),
        *switches(functions),
    ]
    counts = collections.Counter(p[0] for p in places)
    for point, file, line, what in sorted(places):
        if point in wanted:
            print(f"point {point}: {file}:{line}: {what}")
    print(f"functions {len(functions)}")
    for point in sorted(wanted):
        print(f"point {point}: {counts[point]} places")
    return 0


if __name__ == "__main__":
    sys.exit(main(sys.argv[1:]))
