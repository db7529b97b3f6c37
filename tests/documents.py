#!/usr/bin/env python3
"""Compares the documents with the sources: the tables of crates and rules and the list of definitions in
docs/ARCHITECTURE.md, the words with their limits and defaults in docs/RUNNING.md, and the refusals in docs/PROTOCOL.md.
It checks that each module says what it is for, that the help of the program names the limits in its code, and that the
edits of `must-fail` fit. It checks the links and the length of lines in all documents. It also compares the drawn data
of the crates with what the generators draw.

    tests/documents.py [NAME..]

It needs only Python 3, and takes a second or two. The gate, `.ci/run`, runs it.

For each case, one line says whether it passed. The last line is `N passed, M failed`, and the exit status is 1 if a
case failed.
"""
import argparse
import itertools
import pathlib
import re
import subprocess
import sys

from modules import modules
from serving import ROOT, same, try_all

TOP = pathlib.Path(ROOT)
CRATES = TOP / "crates"

# Crates that have no row in the tables of crates: programs that try others, and tests.
UNLISTED = {"up_example", "up_test_data"}

# Files of definitions that docs/ARCHITECTURE.md names together, since no public contract shows their content.
HIDDEN = {"Kept", "Fits", "Stored", "Padded", "Inside", "Steps", "Shapes", "StateCode", "BoardViewCode", "TiedCode", "LawfulOnce"}

# Words of the command line whose numbers no table limits.
ENDLESS = {"max-length", "max-finish"}

# The files of drawn data, each with the script that draws it.
DRAWN = {
    "crates/up_test_data/data/drawn.talks": "tests/draw_talks.py",
    "crates/up_test_data/data/drawn.rows": "tests/draw_rows.py",
}


def text_of(name):
    return (TOP / name).read_text(encoding="utf-8")


def crates():
    """The crates of crates.txt, without those of tests."""
    found = re.findall(r"^(up\w*)(?: [^:\n]*)?:", text_of("crates.txt"), re.MULTILINE)
    return [name for name in found if name != "up_tests"]


def named(text):
    """The texts between backquotes."""
    return re.findall(r"`([^`]+)`", text)


def each_crate():
    """ARCHITECTURE has a row for each library, and names each program."""
    page = text_of("docs/ARCHITECTURE.md")
    for name in crates():
        same(f"`{name}`" in page, True, f"whether {name} is named")
        if (CRATES / name / "src/lib.rt").exists() and name not in UNLISTED:
            same(len(re.findall(rf"^\| `{name}` \|", page, re.MULTILINE)), 1, f"the rows of {name}")


def each_module():
    """Each crate and each of its modules says in the first lines of its file what it is for, in whole sentences."""
    for name in crates():
        for module, text in modules(name):
            same(bool(re.fullmatch(r"[A-Z`].{8,}[.:]", text)), True, f"whether {name}'s {module} says it by {text!r}")


def each_trusted():
    """PROVED names exactly the ported crates that crates.txt lists, and each file that says `unsafe`."""
    part = text_of("docs/PROVED.md").partition("## What is trusted")[2]
    used = {it for line in text_of("crates.txt").splitlines() for it in line.partition(":")[2].split()}
    names = set(named(part.partition("ported crates")[2]))
    same(sorted(names), sorted(it for it in used if not it.startswith("up_")), "the ported crates")
    files = [path for path in CRATES.glob("*/src/**/*.rt") if re.search(r"\bunsafe\b", path.read_text(encoding="utf-8"))]
    missing = [str(path.relative_to(CRATES)) for path in files if f"`{path.relative_to(CRATES)}`" not in part]
    same(missing, [], "the files that say `unsafe`")


def each_definition():
    """ARCHITECTURE's list of definitions has each file of `specs/`, and no other."""
    part = text_of("docs/ARCHITECTURE.md").partition("## Where the definitions are")[2]
    lists = {}
    for item in re.finditer(r"^- `(\w+)`: ((?:.*\n)(?:  .*\n)*)", part, re.MULTILINE):
        plain = re.sub(r"\([^()]*\)", "", item[2])
        lists[item[1]] = set(named(plain))
    for name in crates():
        there = {path.stem for path in (CRATES / name / "specs").glob("*.antt")} - {"Lib"} - HIDDEN
        same(sorted(lists.get(name, set()) - HIDDEN), sorted(there), f"the definitions of {name}")


def each_rule():
    """Each name in ARCHITECTURE's table of rules is in the file that the table names after it."""
    part = text_of("docs/ARCHITECTURE.md").partition("## Where a rule lives")[2].partition("\n## ")[0]
    rows = [line.split(" | ") for line in part.splitlines() if line.startswith("| ") and "`" in line]
    same(len(rows) > 20, True, f"whether {len(rows)} rows are the table")
    for rule, *columns in rows:
        for cell in columns[:2]:
            names = []
            for name in named(cell):
                if not name.endswith((".rt", ".antt")):
                    names += [name.rpartition("::")[2]] * (not name.startswith("--"))
                    continue
                source = text_of(f"crates/{name}")
                missing = [one for one in names if not re.search(rf"\b{one}\b", source)]
                same((missing, bool(names)), ([], True), f"the names of {rule!r} that {name} hasn't, and whether it has some")
                names = []


def words():
    """The words of the command line, each with its help."""
    source = text_of("crates/up_words/src/command_line.rt")
    return re.findall(r'name: "([\w-]+)",.*?help: "([^"]+)"', source, re.DOTALL)


def constants():
    """The constants that limit the numbers of the command line."""
    found = {"u64::MAX": 2**64 - 1}
    for path in ("crates/up_events/src/limits.rt", "crates/up_words/src/settings.rt"):
        for name, number, shift in re.findall(r"^pub const (\w+): u64 = ([\d_]+)(?: << (\d+))?;", text_of(path), re.MULTILINE):
            found[name] = int(number) << int(shift or 0)
    return found


def each_limit():
    """The help of each word that names limits names those that the code checks."""
    source = text_of("crates/up_words/src/command_line.rt")
    limits = constants()
    rows = re.findall(r'name: "([\w-]+)",\s+kind: Kind::Number\((\d+), ([\w:]+)\),.*?help: "([^"]+)"', source, re.DOTALL)
    for name, least, most, help_text in rows:
        if said := re.search(r"from (\d+) to (\d+)", help_text):
            same((int(said[1]), int(said[2])), (int(least), limits[most]), f"the limits in the help of --{name}")


def rows_of_words():
    """The rows of RUNNING's tables, by the word of the command line that each begins with."""
    rows = {}
    for line in text_of("docs/RUNNING.md").splitlines():
        if found := re.match(r"\| `--([\w-]+)", line):
            rows[found[1]] = line
    return rows


def each_default():
    """RUNNING's tables have the default of each word that has one."""
    source = text_of("crates/up_words/src/command_line.rt")
    rows = rows_of_words()
    for name, default in re.findall(r'name: "([\w-]+)",[^}]*?default: Some\("([^"]+)"\)', source):
        wanted = f"{int(default):,}" if default.isdigit() else f"`{default}`"
        same(rows[name].split("|")[3].strip(), wanted, f"the default in the row of --{name}")


def each_word():
    """RUNNING's tables have each word of the command line with its limits, and no other."""
    rows = rows_of_words()
    same(sorted(rows), sorted(name for name, _ in words()), "the words with a row")
    for name, help_text in words():
        if (limits := re.search(r"from (\d+) to (\d+)", help_text)) and name not in ENDLESS:
            wanted = f"{int(limits[1]):,} to {int(limits[2]):,}"
            same(wanted in rows[name], True, f"whether the row of --{name} says {wanted}")


def statuses(path, function):
    """The cases of a definition that maps each fault to a status."""
    found = re.findall(rf"^{function} \(?(?:\w+\.)?(\w+)[^=\n]*= (?:Some |refused_with )?(\d+)", text_of(path), re.MULTILINE)
    return {name: int(status) for name, status in found}


def each_refusal():
    """PROTOCOL's tables have each refusal with its status."""
    wanted = {
        **statuses("crates/up_wire/specs/WireFaults.antt", "wire_fault_status"),
        **statuses("crates/up_headers/specs/HeaderFaults.antt", "header_fault_status"),
        **statuses("crates/up_machine/specs/Refusals.antt", "response_of"),
    }
    wanted.pop("NoMemory", None)
    rows = re.findall(r"^\| `\d+ (\w+)` \| (\d+) \|", text_of("docs/PROTOCOL.md"), re.MULTILINE)
    same({name: int(status) for name, status in rows}, wanted, "the refusals with a status")


def documents():
    return [path for folder in (TOP, TOP / "docs") for path in sorted(folder.glob("*.md"))]


def each_link():
    """The targets of all links in the documents exist."""
    for path in documents():
        for target in re.findall(r"\]\(([^)#:]+)(?:#[^)]*)?\)", path.read_text(encoding="utf-8")):
            same((path.parent / target).exists(), True, f"whether {path.name} links to what is there: {target}")


def each_line():
    """No line of a document is over 120 columns, except for rows of tables, code and drawings."""
    for path in documents():
        plain = re.sub(r"^```.*?^```$", "", path.read_text(encoding="utf-8"), flags=re.MULTILINE | re.DOTALL)
        for line in plain.splitlines():
            same(len(line) <= 120 or line.startswith(("|", "  |", "    ")), True, f"whether {path.name} has no long line: {line}")


def each_drawn():
    """Each file of drawn data is what its generator draws."""
    for name, script in DRAWN.items():
        drawn = subprocess.run([sys.executable, TOP / script], stdout=subprocess.PIPE, check=True).stdout
        stored = (TOP / name).read_bytes()
        if drawn == stored:
            continue
        pairs = itertools.zip_longest(drawn.splitlines(keepends=True), stored.splitlines(keepends=True))
        number, (new, old) = next((at, pair) for at, pair in enumerate(pairs, 1) if pair[0] != pair[1])
        same(new, old, f"line {number} that {script} draws, and of {name}")


def each_edit():
    """What an edit of `must-fail` replaces is there once, and no module that stays uses one that the edit leaves out."""
    edits = sorted(CRATES.glob("*/must-fail/*.edit"))
    same(len(edits) > 40, True, f"whether {len(edits)} edits are there")
    for edit in edits:
        text, crate, changes = edit.read_text(encoding="utf-8"), edit.parent.parent, {}
        for name, part in re.findall(r"^file: (.+)\n((?:(?!file: ).*\n)*)", text, re.MULTILINE):
            source = (crate / name).read_text(encoding="utf-8")
            changes[name] = re.findall(r"^old: (.+)\nnew: ?(.*)", part, re.MULTILINE)
            counts = {old: source.count(old) for old, _ in changes[name]}
            same({old for old, count in counts.items() if count != 1}, set(), f"what {edit.name} replaces in {name}")
        out = set(re.findall(r"^new: #\[cfg\(test\)\] mod (\w+);", text, re.MULTILINE))
        gone = re.findall(r"^new: #\[cfg\(test\)\] (use .+)", text, re.MULTILINE)
        for module in sorted((crate / "src").glob("*.rt")):
            source = "".join(line for line in module.open(encoding="utf-8") if line.rstrip("\n") not in gone)
            used = set(re.findall(r"\bcrate::(\w+)::", source)) if module.stem not in out else set()
            same(used & out, set(), f"what {edit.name} leaves out and {module.stem} uses")
        for words in sorted((crate / "specs").glob("*.antt")):
            source = words.read_text(encoding="utf-8")
            for old, new in changes.get(f"specs/{words.name}", []):
                source = source.replace(old, new)
            named = set(re.findall(rf"\bRattle\.{crate.name}\.specs\.declared\.(\w+)\.", source))
            same(named & out, set(), f"what {edit.name} leaves out and {words.name} names")


if __name__ == "__main__":
    CASES = [
        each_crate, each_module, each_trusted, each_definition, each_rule, each_word, each_limit, each_default,
        each_refusal, each_link, each_line, each_edit, each_drawn,
    ]
    given = argparse.ArgumentParser(description=__doc__, formatter_class=argparse.RawDescriptionHelpFormatter)
    given.add_argument("names", nargs="*", metavar="NAME", help="the cases to be tried, instead of all")
    sys.exit(try_all(CASES, given.parse_args().names))
