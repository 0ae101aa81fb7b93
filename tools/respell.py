#!/usr/bin/env python3
"""Respells the repository's own definitions and lemmas, once, after /opt/rattle/port/port.py:  respell.py

Each line of tools/respelled.txt is an old name and the new one. Names stand whole: a name that is part of a longer one stays.
Words of a name are joined by an underscore; a dash joins only two names, as the function and its argument on a lemma's left side;
what is a fact is spelled as a type. Functions of src/, strings, inputs and outputs keep their names: none of them has a dash.
"""
import pathlib
import re

top = pathlib.Path(__file__).resolve().parent.parent
table = dict(line.split() for line in (top / "tools" / "respelled.txt").read_text().splitlines())
name = re.compile(r"[^\s(){}\[\];.,:`\"]+")

changed = 0
for file in sorted(top.glob("crates/*/**/*")):
    if file.suffix not in (".antt", ".rt") or "out" in file.relative_to(top).parts:
        continue
    old = file.read_text()
    new = name.sub(lambda m: table.get(m.group(), m.group()), old)
    if new != old:
        file.write_text(new)
        changed += 1
print(f"respell: {len(table)} names, {changed} files changed")
