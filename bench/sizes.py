#!/usr/bin/env python3
"""Says how many bytes the prover kept of each function of a crate, largest first.

    rt check up_wire && bench/sizes.py up_wire
    bench/sizes.py up_wire up_store --most 50

The time of a proof goes with these bytes, whatever else the machine does; most are of `Lts`, the borrow checker's part.
`bench/proofs.py` measures the time itself. The prover keeps them of a crate that `rt check` or `./up` has proved, also
of functions that aren't there any more: only those of a first check are exact.
"""
import argparse
import collections
import glob
import os
import sys

CRATES = os.path.join(os.path.dirname(os.path.dirname(os.path.abspath(__file__))), "crates")
MB = 1_000_000


def sizes_of(crate):
    """The bytes of each kind of file of each function, closure and drop of a crate."""
    functions = collections.defaultdict(collections.Counter)
    prefix = f"Rattle-{crate}-proofs."
    for path in glob.glob(os.path.join(CRATES, crate, "out", "incremental", "*", f"{prefix}*.oantt")):
        words = os.path.basename(path).removeprefix(prefix).removesuffix(".oantt").split(".")
        names = list(words)
        while names and names[-1][:1].isupper() and names[-1][1:2].islower() and len(names) > 1:
            names.pop()
        kind = words[len(names)].partition("-")[0] if len(names) < len(words) else "other"
        functions[".".join(names)][kind] += os.path.getsize(path)
    return functions


def main():
    """Prints the sum of each crate, and its largest functions."""
    parser = argparse.ArgumentParser(description=__doc__, formatter_class=argparse.RawDescriptionHelpFormatter)
    parser.add_argument("crates", nargs="+", metavar="CRATE", help="a crate's name")
    parser.add_argument("--most", type=int, default=20, help="how many functions to show of each crate (20)")
    given = parser.parse_args()
    for crate in given.crates:
        functions = sizes_of(crate)
        if not functions:
            sys.exit(f"nothing is kept of {crate}: rt check {crate} comes first")
        kinds = sum(functions.values(), collections.Counter())
        parts = ", ".join(f"{kind} {size / MB:.0f}" for kind, size in kinds.most_common(4))
        print(f"{crate}: {sum(kinds.values()) / MB:.0f} MB: {parts}")
        ordered = sorted(functions.items(), key=lambda it: -sum(it[1].values()))
        for function, sizes in ordered[: given.most]:
            parts = ", ".join(f"{kind} {size / MB:.2f}" for kind, size in sizes.most_common(3))
            print(f"{sum(sizes.values()) / MB:7.2f}  {function}: {parts}")


if __name__ == "__main__":
    main()
