#!/usr/bin/env python3
"""Respells the repository's own definitions, lemmas, fields and types: words in snake case, types in camel case.

usage: tools/respell.py [--check]     at the top of the repository; --check writes nothing and prints the table

A name is taken from where it is declared: at the left of a signature of specs/ or proofs/, as a record, a
data type, a constructor or a field. What Rattle itself names (goals in Answers.antt and Invariants.antt) is no name of
ours. A dash becomes an underscore; a name that begins with a capital loses its dashes and each part gets a capital. A ghost
member of a trait that has a capital inside gets an underscore there.
"""
import os
import re
import sys

TOKEN = re.compile(r'[^\s(){}.;,@"«»:]+')
SIGNATURE = re.compile(r'^ *(?:abbrev |unfoldable )?(?:pub )?([^\s(){}.;,@"«»:]+)(?: \([^=]*\))* :')
TYPE = re.compile(r'^(?:pub )?(?:record|data) ([^\s(){}.;,@"«»:]+)')
FIELD = re.compile(r'^  +(?:pub )?([^\s(){}.;,@"«»:]+) :')
MEMBER = re.compile(r'^ +ghost ([a-z]+[A-Z]\w*):', re.M)
MADE = ("Answers.antt", "Invariants.antt", "Proof.antt")


def files(kinds):
    for folder, dirs, names in os.walk("crates"):
        dirs[:] = sorted(d for d in dirs if d != "out")
        for name in sorted(names):
            if name.endswith(kinds):
                yield os.path.join(folder, name)


def declared():
    """Each declared name."""
    found = set()
    for path in files((".antt",)):
        made = os.path.basename(path) in MADE
        with open(path, encoding="utf-8") as file:
            text = file.read()
        inside = False
        for line in text.split("\n"):
            kind = TYPE.match(line)
            if kind:
                found.add(kind.group(1))
                inside = True
                continue
            if line and not line.startswith(" "):
                inside = False
            field = FIELD.match(line)
            if inside and field:
                found.add(field.group(1))
            signature = SIGNATURE.match(line)
            if signature and not (made and re.search(r":\s+goal\.", line)):
                found.add(signature.group(1))
    for path in files((".rt",)):
        with open(path, encoding="utf-8") as file:
            found.update(MEMBER.findall(file.read()))
    return found


def respelled(name):
    name = name.replace("′", "'")
    if re.fullmatch("[a-z]+[A-Z][A-Za-z]*", name):
        return re.sub("[A-Z]", lambda found: "_" + found.group(0).lower(), name)
    if "-" not in name.strip("-"):
        return name
    if name[0].isupper():
        return "".join(part[:1].upper() + part[1:] for part in name.split("-"))
    return name.replace("-", "_")


def turn(text, table, rust):
    """The text with each name of the table respelled, outside comments and strings."""
    out = []
    for line in text.split("\n"):
        mark = line.find("//") if rust else (0 if line.lstrip().startswith("--") else -1)
        code, rest = (line, "") if mark < 0 else (line[:mark], line[mark:])
        out.append(TOKEN.sub(lambda found: table.get(found.group(0), found.group(0)), code) + rest)
    return "\n".join(out)


def main():
    names = declared()
    table = {name: respelled(name) for name in names if respelled(name) != name}
    clash = sorted(new for old, new in table.items() if new in names or list(table.values()).count(new) > 1)
    for old, new in sorted(table.items()):
        if "--check" in sys.argv:
            print(f"{old}\t{new}")
    for new in clash:
        print(f"falls together: {new}", file=sys.stderr)
    if "--check" in sys.argv:
        return
    for path in files((".antt", ".rt")):
        with open(path, encoding="utf-8") as file:
            text = file.read()
        turned = turn(text, table, path.endswith(".rt"))
        if turned != text:
            with open(path, "w", encoding="utf-8") as file:
                file.write(turned)


main()
