#!/usr/bin/env python3
"""Prints the picture of docs/extend/ARCHITECTURE.md: which crate depends on which, as Mermaid, from crates.txt.

    tests/harness/crates_map.py

An edge that others imply is left out. `wrong` says if the page has another picture, if its table of crates has another order
than crates.txt, or if a program depends on a crate of the outcome law.
"""

import os
import re
import sys

sys.dont_write_bytecode = True
TOP = os.path.dirname(os.path.dirname(os.path.dirname(os.path.abspath(__file__))))


def parts_of(text):
    """The headings of crates.txt, each with its crates, and what each crate depends on."""
    parts, below = [], {}
    for line in text.splitlines():
        if line.startswith("# ") and not line.endswith("."):
            parts.append((line[2:], []))
        elif ":" in line and not line.startswith("#"):
            name, libraries = line.split(":", 1)
            parts[-1][1].append(name.split()[0])
            below[name.split()[0]] = libraries.split()
    return parts, {name: [it for it in libraries if it in below] for name, libraries in below.items()}


def all_below(below, name, found=None):
    """All crates that a crate depends on, through others too."""
    found = set() if found is None else found
    for it in below[name]:
        if it not in found:
            found.add(it)
            all_below(below, it, found)
    return found


def edges_of(below):
    """What each crate depends on, less what those depend on."""
    reached = {name: all_below(below, name) for name in below}
    for name, its in below.items():
        implied = set().union(*(reached[it] for it in its)) if its else set()
        yield from ((name, it) for it in its if it not in implied)


def mermaid(text):
    """The lines of the picture."""
    parts, below = parts_of(text)
    yield "flowchart TD"
    for number, (title, names) in enumerate(parts):
        yield f'  subgraph part{number} ["{title}"]'
        yield from (f"    {name}" for name in names)
        yield "  end"
    yield from (f"  {name} --> {it}" for name, it in edges_of(below))


def over_the_law(top, text):
    """A program, and a crate of the outcome law that it depends on, or None."""
    parts, below = parts_of(text)
    laws = set(dict(parts)["The outcome law"])
    for name in below:
        found = all_below(below, name) & laws
        if found and os.path.isfile(os.path.join(top, "crates", name, "src", "main.rt")):
            return name, min(found)
    return None


def wrong(top):
    """How docs/extend/ARCHITECTURE.md differs from crates.txt, or what crates.txt has that it may not have, or None."""
    with open(os.path.join(top, "crates.txt"), encoding="utf-8") as it:
        text = it.read()
    with open(os.path.join(top, "docs", "extend", "ARCHITECTURE.md"), encoding="utf-8") as it:
        page = it.read()
    found = over_the_law(top, text)
    if found:
        return "of crates.txt, the program {} depends on {}, a crate of the outcome law".format(*found)
    picture = "\n".join(mermaid(text))
    if f"```mermaid\n{picture}\n```" not in page:
        return "its picture is not the one that tests/harness/crates_map.py prints"
    names = [name for _, its in parts_of(text)[0] for name in its]
    rows = [name for name in re.findall(r"^\| `(\w+)` \|", page, re.MULTILINE) if name in names]
    return None if rows == names else "its table of crates has not the order of crates.txt"


if __name__ == "__main__":
    with open(os.path.join(TOP, "crates.txt"), encoding="utf-8") as crates:
        print("\n".join(mermaid(crates.read())))
