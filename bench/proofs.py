#!/usr/bin/env python3
"""Proves a crate from nothing, and says which of its functions take the prover longest.

    bench/proofs.py up_wire
    bench/proofs.py up_tests --test --jobs 4

A function's proof has several parts: `Lts` is what the borrow checker shows, and `Proof` the search for goals that have
no written answer. The prover writes a file for each part when it is done with it. The time of a part is the processor
time that the process which wrote its file has used since the file before, so other work on the machine matters little.
Linux says who writes a file only to root (fanotify). What earlier checks of the crate kept is removed.
"""
import argparse
import collections
import ctypes
import os
import shutil
import struct
import subprocess
import sys
import threading

CRATES = os.path.join(os.path.dirname(os.path.dirname(os.path.abspath(__file__))), "crates")

# Of linux/fanotify.h: a file was closed after it was written, and a whole mount is watched.
FAN_CLOSE_WRITE, FAN_MARK_ADD, FAN_MARK_MOUNT = 0x08, 0x01, 0x10
AT_FDCWD = -100
EVENT = struct.Struct("=IBBHQii")


def watched(folder):
    """Returns a descriptor that tells of each file written in the folder's mount, and by which process."""
    libc = ctypes.CDLL(None, use_errno=True)
    libc.fanotify_mark.argtypes = [ctypes.c_int, ctypes.c_uint, ctypes.c_uint64, ctypes.c_int, ctypes.c_char_p]
    events = libc.fanotify_init(0, os.O_RDONLY)
    mark = FAN_MARK_ADD | FAN_MARK_MOUNT
    if events < 0 or libc.fanotify_mark(events, mark, FAN_CLOSE_WRITE, AT_FDCWD, folder.encode()) < 0:
        sys.exit(f"files can't be watched: {os.strerror(ctypes.get_errno())}; this needs root, on Linux")
    return events


def processor_seconds(process):
    """The processor time that a process has used, in seconds; None if it has ended."""
    try:
        with open(f"/proc/{process}/stat", encoding="utf-8") as file:
            fields = file.read().rpartition(")")[2].split()
    except OSError:
        return None
    return (int(fields[11]) + int(fields[12])) / os.sysconf("SC_CLK_TCK")


def note_parts(events, kept, prefix, times):
    """Adds to `times` the seconds of each part whose file is written in the folder `kept`, until the watch ends."""
    used = {}
    while True:
        for event in EVENT.iter_unpack(os.read(events, 4096 // EVENT.size * EVENT.size)):
            file, process = event[5:]
            path = os.readlink(f"/proc/self/fd/{file}")
            os.close(file)
            now = processor_seconds(process)
            name, found, _ = os.path.basename(path).partition(".oantt")
            if now is None or not found or not path.startswith(kept) or not name.startswith(prefix):
                continue
            part = name.removeprefix(prefix).removeprefix("proofs.").removesuffix(".decls")
            times[part if process in used else "(start).reading"] += now - used.get(process, 0)
            used[process] = now


def main():
    """Proves the crate, and prints the sum of each kind of part and the slowest functions."""
    parser = argparse.ArgumentParser(description=__doc__, formatter_class=argparse.RawDescriptionHelpFormatter)
    parser.add_argument("crate", help="the crate's name")
    parser.add_argument("--test", action="store_true", help="prove its tests too")
    parser.add_argument("--jobs", type=int, default=1, help="how many provers work side by side (1)")
    parser.add_argument("--most", type=int, default=30, help="how many functions to show (30)")
    given = parser.parse_args()
    folder = os.path.join(CRATES, given.crate)
    kept = os.path.join(folder, "out", "incremental")
    shutil.rmtree(kept, ignore_errors=True)
    times = collections.Counter()
    noting = (watched(folder), kept, f"Rattle-{given.crate}-", times)
    threading.Thread(target=note_parts, args=noting, daemon=True).start()
    words = ["rt", "check", "--jobs", str(given.jobs)] + ["--test"] * given.test
    checked = subprocess.run(words, cwd=folder, stdout=subprocess.DEVNULL, check=False)
    if checked.returncode:
        print(f"{given.crate} is not proved; these are the parts that were done")
    functions, kinds = collections.Counter(), collections.defaultdict(collections.Counter)
    for part, seconds in times.items():
        function, _, kind = part.rpartition(".")
        functions[function] += seconds
        kinds[function][kind] += seconds
    print(f"{sum(times.values()):.0f} s of processor time")
    for function, seconds in functions.most_common(given.most):
        slowest = ", ".join(f"{kind} {time:.1f}" for kind, time in kinds[function].most_common(3))
        print(f"{seconds:6.1f}  {function}: {slowest}")


if __name__ == "__main__":
    main()
