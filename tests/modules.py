#!/usr/bin/env python3
"""Prints what each module is for, as the first lines of its file say.

    tests/modules.py [CRATE..]

It needs only Python 3. `tests/documents.py` looks at what it prints.
"""
import itertools
import pathlib
import sys

from serving import ROOT


def about(path):
    """The first paragraph of what a file says of itself, as one line."""
    lines = path.read_text(encoding="utf-8").splitlines()
    return " ".join(line[4:] for line in itertools.takewhile(lambda line: line.startswith("//! "), lines))


def modules(crate):
    """The modules of a crate, each with what it is for; first the crate itself."""
    source = pathlib.Path(ROOT, "crates", crate, "src")
    root = next(path for path in (source / "lib.rt", source / "main.rt") if path.exists())
    yield crate, about(root)
    for path in sorted(source.rglob("*.rt")):
        if path != root:
            yield "::".join(path.relative_to(source).with_suffix("").parts), about(path)


def main(names):
    """Prints the modules of these crates, or of all."""
    there = sorted(path.parent.name for path in pathlib.Path(ROOT, "crates").glob("*/src"))
    for crate in names or there:
        if crate not in there:
            sys.exit(f"there is no crate {crate}")
        for name, text in modules(crate):
            print(f"{name}: {text}" if name == crate else f"    {name}: {text}")


if __name__ == "__main__":
    main(sys.argv[1:])
