#!/usr/bin/env python3
"""Brings the repository's own names in specs/ and proofs/ to one spelling: words in snake case, what is a type in camel case.

python3 tools/respell.py          in place, over crates/; prints each name with what it became

It is the second half of tools/port_spelling.sh. Names of source items, names that Rattle makes (goals, steps, loops) and
names that a file takes from a library stay. It stops, with nothing written, where two names would fall together.
"""
import os
import re
import sys

# What a token of antt is made of: everything but blanks and these.
TOKEN = re.compile(r"[^\s(){}\[\].,;:«»]+")
DECLARED = re.compile(r"^(?:abbrev mutual |abbrev pub |unfoldable pub |abbrev |unfoldable |pub |)(record |data |ruleset )?([^\s(){}:;,.]+) *(?::|\()(.*)")
INNER = re.compile(r"^\s+(?:abbrev pub |unfoldable pub |abbrev |unfoldable |pub )?([^\s(){}:;,.=|λ]+) : ")
ALIAS = re.compile(r"^use \S+ as (\S+)$")
GHOST = re.compile(r"^\s*ghost (\w+)(?:: \{| = \{)")
USED = re.compile(r"^\s*(?:ghost )?use ([^;{\n]*?)\.?\{([^}]*)\}", re.M)
# Goals, measures and invariants are named by Rattle, after the code.
MADE = re.compile(r"^(invariant|decreases|loop|returns|overflow|bounds|slice_bounds|nonzero|ghost)-|-requires|^choice-")


def files(kinds):
    for folder, inner, names in os.walk("crates"):
        inner[:] = sorted(d for d in inner if d != "out")
        for name in sorted(names):
            if name.endswith(kinds):
                yield os.path.join(folder, name)


def read(path):
    with open(path, encoding="utf-8") as file:
        return file.read()


def is_answers(path):
    return os.path.basename(path) in ("Answers.antt", "Invariants.antt", "Choices.antt", "Proof.antt")


def snake(name):
    name = re.sub(r"(?<=[a-z0-9])([A-Z])", lambda m: "_" + m[1].lower(), name)
    return re.sub(r"(?<=\w)-(?=\w)", "_", name)


def camel(name):
    return "".join(part[:1].upper() + part[1:] for part in re.split(r"[-_]", name))


def declared():
    """The names that specs/, proofs/ and the ghost members of src/ declare, each with whether it is a type."""
    names = {}
    for path in files(".antt"):
        lines = read(path).split("\n")
        for i, line in enumerate(lines):
            found = ALIAS.match(line)
            if found and found[1][:1].islower():
                names.setdefault(found[1], False)
            if line.startswith(("use ", "--")):
                continue
            found = DECLARED.match(line)
            if found and not (is_answers(path) and MADE.search(found[2])):
                whole = found[3]
                for more in lines[i + 1 :]:
                    if not more.startswith(" "):
                        break
                    whole += " " + more.strip()
                kind = found[1] in ("record ", "data ") or (found[1] is None and re.search(r"Type \d\s*$", whole) is not None)
                names[found[2]] = names.get(found[2], False) or kind
                continue
            found = INNER.match(line)
            if found:
                names.setdefault(found[1], False)
    for path in files(".rt"):
        for line in read(path).split("\n"):
            found = GHOST.match(line)
            if found and found[1][:1].islower():
                names.setdefault(found[1], False)
    return names


def spelled(name, is_type):
    return camel(name) if is_type or name[:1].isupper() else snake(name)


def turned():
    """Each name with its spelling; a lemma that would have the name of a definition ends in `_lem`."""
    known = declared()
    table = {name: spelled(name, is_type) for name, is_type in known.items() if spelled(name, is_type) != name}
    texts = [set(TOKEN.findall(re.sub(r"(?m)^use .*$", "", read(path)))) for path in files(".antt")]
    for name, new in table.items():
        others = {new} | {other for other in table if other != name and table[other] == new}
        if "-" in name and any(name in text and text & others for text in texts):
            table[name] = new + "_lem"
    return table


def foreign(text, crates):
    """The names that a file takes from elsewhere than this repository."""
    names = set()
    for found in USED.finditer(text):
        path = re.split(r"[.·]", found[1])
        if not (path[0] == "Rattle" and len(path) > 1 and path[1] in crates) or "Goals" in path or "Given" in path or "declared" in path:
            names |= set(re.split(r"[,\s]+", found[2].strip()))
    return names


def main():
    if not os.path.isdir("crates"):
        sys.exit("run it at the top of the repository")
    crates = set(os.listdir("crates"))
    table = turned()
    bad = []
    out = {}
    for path in files((".antt", ".rt", ".edit")):
        text = read(path)
        skip = foreign(text, crates)
        # Of a source file a function may have the name of its definition.
        tokens = TOKEN.findall(re.sub(r"(?m)^use .*$", "", text) if path.endswith(".antt") else re.sub(r"\b(fn |mod |use [\w:]*|crate::[\w:]*)\w+|\w+\(", "", text))
        here = table.keys() & set(tokens) - skip
        for old in here:
            if table[old] in tokens or any(table[old] == table[other] for other in here if other != old):
                bad.append(f"{path}: {old} and another would both be {table[old]}")
        out[path] = TOKEN.sub(lambda m: m[0] if m[0] in skip else table.get(m[0], m[0]), text)
    if bad:
        sys.exit("\n".join(bad))
    for path, text in out.items():
        if text != read(path):
            with open(path, "w", encoding="utf-8") as file:
                file.write(text)
    for old in sorted(table):
        print(f"{old} -> {table[old]}")


if __name__ == "__main__":
    main()
