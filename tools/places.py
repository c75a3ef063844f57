#!/usr/bin/env python3
"""Counts the places in src/ that an older form of the language could have left. docs/DESIGN-PASS.md says what was done.

    tools/places.py [COMMIT] [--list]

Of a commit, or of the working tree. With --list each place is named. It goes by the text alone: a place is one to look at.
The number in front is that of the point in that page's second table.
"""
import collections
import re
import subprocess
import sys

INTEGER = r"(?:u8|u16|u32|u64|usize)"
KEYWORDS = set("as break else false fn for if impl in let loop match mut pub ref return self Self true while".split())


def sources(commit):
    """The files of src/, each with its text."""
    if commit is None:
        names = subprocess.run(["git", "ls-files", "crates/*/src/*.rt"], capture_output=True, text=True).stdout.split()
        return [(name, open(name).read()) for name in names]
    tree = subprocess.run(["git", "ls-tree", "-r", "--name-only", commit], capture_output=True, text=True).stdout.split()
    names = [n for n in tree if re.fullmatch(r"crates/\w+/src/[\w/]+\.rt", n)]
    return [(n, subprocess.run(["git", "show", f"{commit}:{n}"], capture_output=True, text=True).stdout) for n in names]


def closing(text, start):
    """The place after the bracket that closes the one at `start`."""
    pairs = {"(": ")", "{": "}", "[": "]"}
    depth = 0
    for i in range(start, len(text)):
        if text[i] in pairs:
            depth += 1
        elif text[i] in pairs.values():
            depth -= 1
            if depth == 0:
                return i + 1
    return len(text)


Function = collections.namedtuple("Function", "place name params answer clauses body")


def functions(name, text):
    """Each function: its parameters, what it answers, its clauses and its body."""
    text = re.sub(r"//[^\n]*", lambda m: " " * len(m.group()), text)
    found = []
    for m in re.finditer(r"\bfn (\w+)", text):
        opened = text.index("(", m.end())
        at = closing(text, opened)
        params = [p.strip() for p in re.split(r",(?![^<(\[]*[>)\]])", text[opened + 1:at - 1]) if p.strip()]
        answer, clauses = "", []
        while True:
            rest = text[at:]
            clause = re.match(r"\s*(requires|ensures)\b[^{]*", rest)
            arrow = re.match(r"\s*->\s*([^{;]*?)(?=\s*(?:requires\b|ensures\b|where\b|\{|;))", rest)
            if clause:
                opened = at + clause.end()
                at = closing(text, opened)
                clauses.append((clause.group(1), text[opened + 1:at - 1].strip()))
            elif arrow:
                answer = arrow.group(1).strip()
                at += arrow.end()
            elif re.match(r"\s*where\b", rest):
                at += re.match(r"\s*where\b[^{;]*?(?=requires|ensures|\{|;)", rest).end()
            else:
                break
        body = ""
        if re.match(r"\s*\{", text[at:]):
            opened = text.index("{", at)
            body = text[opened:closing(text, opened)]
        line = text.count("\n", 0, m.start()) + 1
        found.append(Function(f"{name}:{line}", m.group(1), params, answer, clauses, body))
    return found


def shape(function):
    """A body with names, literals and comparisons left out."""
    tokens = re.findall(r"b?\"[^\"]*\"|b?'[^']*'|\w+|[<>]=?|[=!]=|&&|\|\||\S", function.body)
    out = []
    for t in tokens:
        if re.match(r"b?[\"']|\d", t):
            out.append("0")
        elif re.fullmatch(r"[<>]=?", t):
            out.append("<")
        elif re.fullmatch(r"\w+", t) and t not in KEYWORDS:
            out.append("x")
        else:
            out.append(t)
    return " ".join(out)


def lines(files, pattern):
    return [f"{n}:{i}: {l.strip()}" for n, t in files for i, l in enumerate(t.split("\n"), 1)
            if re.search(pattern, re.sub(r"//.*|^ghost .*", "", l))]


def twins(every):
    """Functions of one shape, but the first of each shape; and structs of the same fields' types."""
    shapes = collections.defaultdict(list)
    for f in every:
        s = shape(f)
        if len(s.split()) >= 14 and "/tests.rt" not in f.place:
            shapes[s].append(f)
    return [f"{f.place}: {f.name} as {same[0].name}" for same in shapes.values() for f in same[1:]]


def type_twins(files):
    types = collections.defaultdict(list)
    for n, t in files:
        for m in re.finditer(r"\bstruct (\w+)[^;{(]*\{([^}]*)\}", re.sub(r"//.*", "", t)):
            fields = tuple(re.findall(r"^\s*(?:pub(?:\(crate\))? )?\w+: ([^{}]+?),", m.group(2), re.M))
            if fields:
                types[fields].append(f"{n}: {m.group(1)}")
    return [f"{p} as {same[0].split(': ')[1]}" for same in types.values() for p in same[1:]]


def facts(every):
    """Facts that functions of one file require, in three of them or more."""
    held = collections.defaultdict(set)
    for f in every:
        crate = f.place.split("/")[1]
        for kind, text in f.clauses:
            if kind == "requires":
                for fact in re.split("×", text):
                    held[crate, re.sub(r"[(){}\s]+", " ", fact).strip()].add(f.place)
    return [f"{crate}: {fact} ({len(p)})" for (crate, fact), p in held.items() if len(p) >= 3]


def groups(every):
    """Parameters that stand side by side in three functions of a crate or more: the widest groups."""
    seen = collections.defaultdict(set)
    for f in every:
        params = [re.sub(r"^mut ", "", p) for p in f.params if not re.match(r"&?(mut )?self$|rt:", p)]
        crate = f.place.split("/")[1]
        for i in range(len(params)):
            for j in range(i + 2, len(params) + 1):
                seen[crate, tuple(params[i:j])].add(f.place)
    often = {k: v for k, v in seen.items() if len(v) >= 3}
    widest = [k for k in often if not any(k != o and k[0] == o[0] and often[o] == often[k]
              and any(o[1][i:i + len(k[1])] == k[1] for i in range(len(o[1]))) for o in often)]
    return [f"{c}: {', '.join(g)} ({len(often[c, g])})" for c, g in widest]


def main():
    args = [a for a in sys.argv[1:] if a != "--list"]
    files = sources(args[0] if args else None)
    every = [f for n, t in files for f in functions(n, t)]
    product = [f for f in every if "/tests.rt" not in f.place]
    named = lambda fs: [f"{f.place}: {f.name}" for f in fs]
    points = [
        ("1", "a bool for whether something was done", named(f for f in every if f.answer == "bool" and any("&mut" in p for p in f.params))),
        ("1", "an Option that holds an error", named(f for f in every if re.search(r"Option<(Cause|Refusal|\w*Error)>", f.answer))),
        ("1", "a Result that holds a bool", named(f for f in every if "Result<bool" in f.answer)),
        ("1", "a field that is a flag", lines(files, r"^\s*(pub )?\w+: bool,$")),
        ("1", "a number or bytes for a case of an enum", lines(files, r"\b(variant|kind|code|mode): &?" + INTEGER) + lines(files, r"fn \w+\(self\) -> (u8|&'static \[u8\])")),
        ("1", "an error handed on by hand", lines(files, r"Some\(cause\)|return Some\(Cause|Err\(\w+::\w+(\(\w+\))?\) =>|Err\(refusal\)\s*=>")),
        ("2", "a function of another's shape", twins(every)),
        ("2", "a struct of another's fields", type_twins(files)),
        ("3", "while, loop", lines(files, r"\b(while|loop)\b")),
        ("3", "for over a range or with an index", lines(files, r"\bfor\b.*(\.\.|enumerate)")),
        ("4", "a match that only tells which case", named(f for f in every if f.answer == "bool" and re.match(r"\{\s*match [^{]*\{[^{}]*=>\s*(true|false),", f.body))),
        ("4", "a record copied field by field", lines(files, r"^\s*(\w+): self\.\1,$")),
        ("4", "a refusal spelled out", lines(files, r"\bRefusal \{")),
        ("4", "a conversion by `as`, a digit by hand", lines(files, r"\bas (u8|u32|u64|usize)\b|[+-] b'0'|parse::<")),
        ("4", "text written by hand", named(f for f in product if "/text/" in f.place and any(re.match(r"(draft|buffer): &mut \[u8\]", p) for p in f.params))),
        ("5", "a fact that three functions of a crate require", facts(product)),
        ("5", "parameters side by side in three functions", groups(product)),
        ("6", "a slice written at an index beside it", named(f for f in product if any("&mut [" in p for p in f.params) and any(re.match(r"(at|count|i|room): usize", p) for p in f.params))),
        ("6", "a search by hand", [f"{f.place}: {f.name}" for f in product if re.search(r"for [^{]*\{\s*if [^{]*\{\s*return (true|false);", f.body)]),
        ("7", "a match on which step to run", lines(files, r"\bmatch (self\.)?(how|form|scheme|variant|op)\b")),
    ]
    for point, what, places in points:
        print(f"{point}  {len(places):3}  {what}")
        if "--list" in sys.argv:
            print("".join(f"        {p}\n" for p in places), end="")


main()
