#!/usr/bin/env python3
"""Runs `rt ci` in several trees at one time, from nothing, and says how much processor time each crate took.

    bench/gates.py ../before .
    bench/gates.py ../before . --without up_log,up_store
    bench/gates.py . --jobs 4 --crates up_wire
    bench/gates.py ../before . --kept --crates up_tests up --without up_events

Each tree is a clean clone of its own, and each has the same number of jobs. What is counted is processor time: of the
provers for a crate's proof, for its tests, for its edits and for making a program of it, and of all other processes
together. They are looked at five times a second, so the last fraction of a second of each is missed. Do nothing else
meanwhile: beside other work a prover takes up to twice the processor time. The tests of two trees take 20 GB at a time.

A crate that is the same in both trees, with all crates below it, takes the same time in both. With `--kept` it is
proved in one of them alone, so it belongs to those that are left out of the sums.

While it runs, `kill -USR1` with its number makes it say what it has counted so far.
"""
import argparse
import collections
import os
import signal
import subprocess
import sys
import time

KINDS = ["proof", "tests", "edits", "program"]
# Says which tree a process works for. It inherits this from the run that began it. The number keeps two of these scripts
# from counting each other's runs.
MARK = f"UP_GATE_TREE_OF_{os.getpid()}"
# Linkers, programs that are run, and `rt` itself.
OTHERS = "(others)"


def read(process, name):
    """A file of a process, as bytes; nothing if it has ended."""
    try:
        with open(f"/proc/{process}/{name}", "rb") as file:
            return file.read()
    except OSError:
        return b""


def work_of(process):
    """The tree, the crate and the kind of work of a process, or None if it works for no tree."""
    marks = [it for it in read(process, "environ").split(b"\0") if it.startswith(MARK.encode() + b"=")]
    if not marks:
        return None
    tree = int(marks[0].partition(b"=")[2])
    words = read(process, "cmdline").decode(errors="replace").split("\0")
    if "--crate-name" not in words:
        return tree, OTHERS, "program"
    try:
        folder = os.path.basename(os.readlink(f"/proc/{process}/cwd"))
    except OSError:
        return None
    kind = "proof"
    if folder.startswith("rt-edit"):
        kind = "edits"
    elif "--test" in words:
        kind = "tests"
    elif "--crate-checked" in words:
        kind = "program"
    return tree, words[words.index("--crate-name") + 1], kind


def seconds_of(process):
    """When a process began, and its processor time so far in seconds; None if it has ended."""
    fields = read(process, "stat").rpartition(b")")[2].split()
    if len(fields) < 20:
        return None
    return fields[19], (int(fields[11]) + int(fields[12])) / os.sysconf("SC_CLK_TCK")


def look(works, used):
    """Notes how much time each prover has used so far."""
    for process in filter(str.isdigit, os.listdir("/proc")):
        found = seconds_of(process)
        if found is None:
            continue
        key = process, found[0]
        # A process may become a prover only after it has begun.
        if key not in works or works[key][1] == OTHERS:
            work = work_of(process)
            if work is None:
                continue
            works[key] = work
        used[key] = found[1]


def words_of(crates, kept):
    """The words that run the gate, from nothing unless it may take what was kept. A kit whose `rt ci` keeps no proofs
    takes no words."""
    told = subprocess.run(["rt", "help"], stdout=subprocess.PIPE, stderr=subprocess.STDOUT, text=True).stdout
    if "--anew" in told:
        return ["rt", "ci", *([] if kept else ["--anew"]), *crates]
    if crates:
        sys.exit("`rt ci` of this kit proves all crates, and takes no names")
    return ["rt", "ci"]


def begin(number, tree, given, words):
    """Starts the run of a tree. What it prints goes to a file beside the tree."""
    path = f"{os.path.realpath(tree)}.gate.log"
    environ = {**os.environ, MARK: str(number), "RT_JOBS": str(given.jobs)}
    with open(path, "wb") as log:
        run = subprocess.Popen(
            words, cwd=tree, env=environ, stdout=log, stderr=log, stdin=subprocess.DEVNULL,
        )
    print(f"{tree}: {path}", flush=True)
    return run


def show(tree, times, without):
    """Prints the times of a tree, those of its slowest crates first, and their sums."""
    print(f"\n{tree}, processor seconds")
    print(f"{'':18}{''.join(f'{kind:>9}' for kind in KINDS)}{'all':>9}")
    sums = collections.Counter()
    for crate, kinds in sorted(times.items(), key=lambda it: -sum(it[1].values())):
        left_out = crate in without
        if not left_out:
            sums.update(kinds)
        row = "".join(f"{kinds[kind]:9.0f}" for kind in KINDS)
        print(f"{crate:18}{row}{sum(kinds.values()):9.0f}{'  (left out)' if left_out else ''}")
    print(f"{'sum':18}{''.join(f'{sums[kind]:9.0f}' for kind in KINDS)}{sum(sums.values()):9.0f}")
    print(f"{sum(sums.values()) / 60:.0f} processor minutes")


def show_all(given, works, used):
    """Prints the times of all trees, as far as they were counted."""
    times = [collections.defaultdict(collections.Counter) for _ in given.trees]
    for key, seconds in used.items():
        number, crate, kind = works[key]
        times[number][crate][kind] += seconds
    for tree, kinds in zip(given.trees, times):
        show(tree, kinds, given.without.split(","))
    sys.stdout.flush()


def main():
    """Runs the gates, looks at their processes until all have ended, and prints what they took."""
    parser = argparse.ArgumentParser(description=__doc__, formatter_class=argparse.RawDescriptionHelpFormatter)
    parser.add_argument("trees", nargs="+", metavar="TREE", help="the top of a clean clone")
    parser.add_argument("--jobs", type=int, default=2, help="how many checks each tree runs at a time (2)")
    parser.add_argument("--crates", nargs="*", default=[], help="these crates and those below them alone")
    parser.add_argument("--kept", action="store_true", help="take what earlier runs on this machine kept")
    parser.add_argument("--without", default="", help="crates that are left out of the sums, with commas between them")
    given = parser.parse_args()
    words = words_of(given.crates, given.kept)
    works, used, asked = {}, {}, []
    signal.signal(signal.SIGUSR1, lambda *_: asked.append(True))
    runs = [begin(number, tree, given, words) for number, tree in enumerate(given.trees)]
    while any(run.poll() is None for run in runs):
        look(works, used)
        if asked:
            asked.clear()
            show_all(given, works, used)
        time.sleep(0.2)
    show_all(given, works, used)
    sys.exit(any(run.returncode for run in runs))


if __name__ == "__main__":
    main()
