#!/usr/bin/env python3
"""Respells this repository's own antt names as today's Rattle spells them: definitions, fields and lemmas in snake case.

usage, from the repository's root: python3 tools/respell.py

It goes over the .rt, .antt and .edit files of crates/ and the pages (README.md, docs/*.md), in place, after the kit's port.py:

- a name that begins with a small letter and has a capital inside, as `daysLater`, is written `days_later`;
- a field of a record in specs/ that has a hyphen before a number, as `year-2000`, is written `year_2000`.

Functions, exported names, strings, the unit kWh and everything that begins with a capital stay as they are. Running it again changes nothing.
It stops, before it writes anything, where two names of the crates would fall together.
"""

import collections
import pathlib
import re
import sys

NAME = re.compile(r"(?<![\w'\-])[a-z][\w'\-]*")
CAPITAL = re.compile(r"(?<=[a-z0-9])([A-Z])(?=[a-z]|[a-z0-9]*$|-)")
FIELD = re.compile(r"^  pub ([a-z_A-Z]+(?:-[a-z]+)*-\d+) :", re.MULTILINE)
DEFINED = re.compile(r"^\s*(?:(?:abbrev|unfoldable|pub)\s+)*((?:[a-z][\w'\-]*\s+)*[a-z][\w'\-]*)\s+:\s", re.MULTILINE)
BYTE = re.compile(r"b'.'")
UNITS = {"kWh", "kWhs"}


def snake(name):
    """The name in snake case; what stands between hyphens keeps its hyphens."""
    if name in UNITS:
        return name
    return CAPITAL.sub(lambda found: "_" + found.group(1).lower(), name.replace("getD", "get_or"))


def code(text):
    """The text without its comments."""
    return re.sub(r"(--|//).*$", "", text, flags=re.MULTILINE)


def names_of(text):
    return {name for name in NAME.findall(code(text)) if not BYTE.match(name)}


def renamings(texts):
    """Old name to new name, for each name of the texts that is spelled otherwise today."""
    names = set().union(*(names_of(text) for path, text in texts.items() if path.suffix != ".md"))
    renamed = {name: snake(name) for name in names if re.search("[A-Z]", name) and snake(name) != name}
    for path, text in texts.items():
        if path.suffix == ".antt" and "specs" in path.parts:
            for field in FIELD.findall(text):
                renamed[field] = snake(field).replace("-", "_")
    return renamed


def fallen_together(renamed, texts):
    """The names that would be one with another name of the crates."""
    defined = collections.defaultdict(set)
    for path, text in texts.items():
        if path.suffix == ".antt":
            for names in DEFINED.findall(text):
                for name in names.split():
                    defined[name].add(path)
    old = collections.defaultdict(list)
    for name, new in renamed.items():
        old[new].append(name)
    for new, names in sorted(old.items()):
        if len(names) > 1:
            yield f"{' and '.join(sorted(names))} would both be {new}"
        for name in names:
            for path in sorted(defined[name] & defined[new]):
                yield f"{path}: {name} would be {new}, which is defined there too"


def main():
    paths = sorted(p for p in pathlib.Path("crates").rglob("*") if p.suffix in (".rt", ".antt", ".edit") and "out" not in p.parts)
    if not paths:
        sys.exit("respell: no crates/ here: run it from the repository's root")
    pages = [pathlib.Path("README.md"), *sorted(pathlib.Path("docs").rglob("*.md"))]
    texts = {path: path.read_text(encoding="utf-8") for path in [*paths, *pages]}
    renamed = renamings(texts)
    clashes = list(fallen_together(renamed, texts))
    if clashes:
        sys.exit("respell: nothing was written\n" + "\n".join(clashes))
    changed = 0
    for path, text in texts.items():
        new = NAME.sub(lambda found: renamed.get(found.group(), found.group()), text)
        if new != text:
            path.write_text(new, encoding="utf-8")
            changed += 1
    print(f"respell: {len(renamed)} names, {changed} files changed")


if __name__ == "__main__":
    main()
