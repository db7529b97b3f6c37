#!/usr/bin/env python3
"""Runs `./up` in folders of its own, over a toolchain that only says what it does, and looks at what is proved and
built, in which order, and what is left of it.

    tests/building.py [NAME..]

It needs only Python 3 and Linux, and takes some seconds. One case needs leave to mount a disk in memory. The gate,
`.ci/run`, runs it.

For each case, one line says whether it passed. The last line is `N passed, M failed`, and the exit status is 1 if a
case failed.
"""
import contextlib
import os
import pathlib
import re
import shutil
import signal
import subprocess
import sys
import tempfile

from serving import ROOT, same, soon, try_all
from stored import may_mount, small_disk

# The most seconds that a run may take.
MAX_SECONDS = 60

# The crates of a small program, and what each uses.
USES = {"up_a": [], "up_b": ["up_a"], "up_c": ["up_a"], "up_d": ["up_a", "up_b", "up_c"]}
USES["up"] = list(USES)

# A toolchain. It notes what it does in the file RT_NOTES, and keeps some work of each crate in its `out`. With the
# crate RT_SLOW it never comes to an end, the crate RT_BAD it refuses, and with each it waits for the file RT_GATE.
RT = r"""#!/bin/sh
[ "$1" != version ] || { echo "rt of a test"; exit; }
crate=${PWD##*/}
echo "begun $crate$([ ! -e out/work ] || echo " again") $$" >>"$RT_NOTES"
for used in $(sed -n "s/^$crate[^:]*: *//p" ../../crates.txt); do
    case $used in up_*) [ -e "../$used/out/rlib/$used" ] || { echo "error: there is no $used"; exit 1; } ;; esac
done
mkdir -p out/rlib
echo "work" >out/work || exit
echo "told: $*"
echo "so far: 1 of 3 functions checked"
[ "$crate" != "${RT_SLOW:-}" ] || exec sleep 1000
while [ ! -e "${RT_GATE:-/}" ]; do sleep 0.05; done
sleep 0.1
[ "$crate" != "${RT_BAD:-}" ] || { echo "one: this is NOT PROVED"; echo "two: all is well"; exit 1; }
[ "$crate" = up ] || [ "$1" = lib ] || { echo "error: $1 of a library"; exit 1; }
cp src/lib.rt "out/rlib/$crate"
[ "$crate" != up ] || { printf '#!/bin/sh\necho "up 1 $*"\n' >out/up; chmod +x out/up; }
echo "logic=proved crate=$crate functions=3"
echo "ended $crate" >>"$RT_NOTES"
"""


class Tree:
    """A folder with `./up`, which proves so many crates at a time whatever machine this is, or as many as it chooses
    itself, a small program, and a toolchain."""

    def __init__(self, folder, crates=2):
        self.folder = pathlib.Path(folder, "tree")
        self.tools, self.notes = pathlib.Path(folder, "tools"), pathlib.Path(folder, "notes")
        for name in ("up", "packaging/up"):
            (self.folder / name).parent.mkdir(parents=True, exist_ok=True)
            shutil.copy(os.path.join(ROOT, name), self.folder / name)
        if crates:
            text = (self.folder / "up").read_text()
            shares = re.search(r"\n    return crates, (.*)\n", text)[0]
            (self.folder / "up").write_text(text.replace(shares, f"\n    return {crates}, 4\n"))
        (self.folder / "HANDLES").write_text("Handles allowed: none.\n")
        lines = [f"{crate} may_wait=1: {' '.join(used)} clap\n" for crate, used in USES.items()]
        (self.folder / "crates.txt").write_text("# The crates.\n" + "".join(lines))
        for crate in USES:
            self.source(crate).parent.mkdir(parents=True)
            self.source(crate).write_text(f"// {crate}\nfn one() {{}}\n")
        self.tools.mkdir()
        (self.tools / "rt").write_text(RT)
        (self.tools / "rt").chmod(0o755)

    def source(self, crate):
        """The source of a crate."""
        return self.folder / "crates" / crate / "src/lib.rt"

    def environment(self, path=None, **given):
        """The environment of a run, with these variables."""
        path = f"{self.tools}:{os.environ['PATH']}" if path is None else path
        environment = {**os.environ, "PATH": path, "RT_NOTES": str(self.notes), **given}
        environment.pop("UP_PROGRAM", None)
        return environment

    def begin(self, *words, **given):
        """Begins to run `./up` with these words, and with this environment."""
        pipes = {"stdin": subprocess.DEVNULL, "stdout": subprocess.PIPE, "stderr": subprocess.PIPE}
        environment = self.environment(**given)
        return subprocess.Popen([self.folder / "up", *words], env=environment, text=True, preexec_fn=heed, **pipes)

    def run(self, *words, **given):
        """The status of `./up` with these words, and what it writes."""
        return ended(self.begin(*words, **given))

    def noted(self):
        """What the toolchain did since this was last asked, without numbers of processes."""
        lines = self.notes.read_text().splitlines() if self.notes.exists() else []
        self.notes.unlink(missing_ok=True)
        return [" ".join(word for word in line.split() if not word.isdigit()) for line in lines]

    def most_at_once(self):
        """The most crates that were proved at a time since this was last asked."""
        running, most = 0, 0
        for line in self.noted():
            running += 1 if line.startswith("begun") else -1
            most = max(most, running)
        return most

    def logged(self):
        """The lines of the build's log."""
        return (self.folder / "crates/up/out/build.log").read_text().splitlines()

    def is_tidy(self):
        """Checks that nothing is left of rooms, and that no crate has lost what is kept of it."""
        same((self.folder / "out").exists(), False, "whether rooms are left")
        works = [it for it in USES if (self.folder / "crates" / it / "out").exists()]
        return [it for it in works if (self.folder / "crates" / it / "out/work").exists()]


def heed():
    """Has no signal ignored, even if this script is run so that some are."""
    for number in (signal.SIGTERM, signal.SIGINT, signal.SIGHUP):
        signal.signal(number, signal.SIG_DFL)


def ended(run):
    """The status of a run, and what it wrote."""
    out, err = run.communicate(timeout=MAX_SECONDS)
    return run.returncode, out, err


@contextlib.contextmanager
def tree(crates=2):
    """A tree in a folder that is removed afterwards."""
    with tempfile.TemporaryDirectory() as folder:
        yield Tree(folder, crates)


def in_order(noted, again=""):
    """Checks that each crate was proved once, after those that it uses."""
    wanted = [it for crate in USES for it in (f"begun {crate}{again}", f"ended {crate}")]
    same(sorted(noted), sorted(wanted), "what was done")
    for crate, used in USES.items():
        before = noted[: noted.index(f"begun {crate}{again}")]
        same([it for it in used if f"ended {it}" not in before], [], f"what {crate} uses and was not proved")


def first_build():
    """The first run proves each crate once, after those that it uses, and says so; it leaves a log, and no rooms."""
    with tree() as at:
        status, out, err = at.run("--version")
        same((status, out), (0, "up 1 --version\n"), f"the status and the version, behind {err!r}")
        in_order(at.noted())
        lines = err.splitlines()
        log = at.folder / "crates/up/out/build.log"
        begun = f"up: proving and building the server, which takes a while (the log is {log})"
        first = "up: proving up_a: 0 of 5 crates are proved"
        same([*lines[:2], lines[-1]], [begun, first, "up: all is proved"], "the first lines and the last one")
        same(sorted(line.split()[2] for line in lines[1:-1]), sorted(f"{it}:" for it in USES), "what is being proved")
        same("up_c: logic=proved crate=up_c functions=3" in at.logged(), True, "whether the log has a line")
        same(sorted(at.is_tidy()), sorted(USES), "the crates of which something is kept")


def most_at_once():
    """At most two crates are proved at a time, and up_b and up_c are, where that is so; else one is."""
    for crates in (1, 2):
        with tree(crates) as at:
            at.run("--version")
            same(at.most_at_once(), crates, "the most crates at a time")


def shares():
    """On one processor one crate is proved at a time, with one job. On this machine at most two crates are, with at
    most as many jobs each as there are processors."""
    for processors in (1, len(os.sched_getaffinity(0))):
        with tree(crates=None) as at:
            chosen = ",".join(map(str, sorted(os.sched_getaffinity(0))[:processors]))
            words = ["taskset", "-c", chosen, at.folder / "up", "--version"]
            nothing = {"stdout": subprocess.DEVNULL, "stderr": subprocess.DEVNULL}
            subprocess.run(words, env=at.environment(), check=True, **nothing)
            jobs = [int(line.split()[4]) for line in at.logged() if " told: " in line]
            same(len(jobs), len(USES), "how many crates are proved")
            same([it for it in jobs if not 1 <= it <= processors], [], f"wrong numbers of jobs of {processors}")
            same(at.most_at_once() <= min(processors, 2), True, f"whether so few are proved on {processors}")


def second_start():
    """The next run proves nothing and says nothing. One of a source that was only touched doesn't, either."""
    with tree() as at:
        at.run("--version")
        at.noted()
        at.source("up_b").touch()
        same(at.run("--version"), (0, "up 1 --version\n", ""), "what a second run does")
        same(at.noted(), [], "what the toolchain does")


def changed_source():
    """After a change of a source all is proved again, by a toolchain that keeps its work; so it is after a change of
    what is built, of the crates' list or of the toolchain."""
    with tree() as at:
        at.run("--version")
        for path in (at.source("up_c"), at.folder / "crates/up/out/up", at.folder / "crates.txt", at.tools / "rt"):
            at.noted()
            text = path.read_text()
            path.write_text(text.replace("of a test", "of another test") if path.name == "rt" else text + "#\n")
            same(at.run("--version")[:2], (0, "up 1 --version\n"), f"what a run does after a change of {path.name}")
            in_order(at.noted(), " again")


def two_at_once():
    """If one builds, another one waits for it."""
    with tree() as at:
        gate = at.folder / "gate"
        first = at.begin("--version", RT_GATE=str(gate))
        soon(at.notes.exists, "the first crate")
        second = at.begin("--version")
        same(second.stderr.readline(), "up: waiting for another ./up that builds\n", "what the second one says")
        gate.touch()
        same([ended(run)[:2] for run in (first, second)], [(0, "up 1 --version\n")] * 2, "what both do")
        in_order(at.noted())


def signals():
    """A signal ends the build and the toolchain with it. What is kept stays, and the next run goes on."""
    for number in (signal.SIGTERM, signal.SIGINT, signal.SIGHUP):
        with tree() as at:
            run = at.begin("--version", RT_SLOW="up_b")
            soon(lambda: at.notes.exists() and "begun up_b " in at.notes.read_text(), "the crate that takes long")
            prover = int(at.notes.read_text().split("begun up_b ")[1].split()[0])
            soon(lambda: os.readlink(f"/proc/{prover}/exe").endswith("sleep"), "the prover")
            run.send_signal(number)
            same(ended(run)[:2], (1, ""), f"the status after {number.name}, and what is written")
            same(os.path.exists(f"/proc/{prover}"), False, "whether the prover is there")
            same("up_b" in at.is_tidy(), True, "whether work of the crate is kept")
            at.noted()
            same(at.run("--version")[:2], (0, "up 1 --version\n"), "what the next run does")
            same("begun up_b again" in at.noted(), True, "whether it goes on")


# Put into `./up`, it gives it a signal as soon as a prover runs, and notes the number of that one's process.
STRUCK = """
def struck(*words, **given):
    process = subprocess.Popen(*words, **given)
    pathlib.Path(os.environ["RT_NOTES"] + ".process").write_text(str(process.pid))
    os.kill(os.getpid(), signal.SIGTERM)
    return process


def begin("""


def signal_at_the_start():
    """A signal that comes while a prover is being started ends that prover, too."""
    with tree() as at:
        text = (at.folder / "up").read_text()
        text = text.replace("    return subprocess.Popen(", "    return struck(").replace("\ndef begin(", STRUCK)
        (at.folder / "up").write_text(text)
        same(text.count("struck("), 2, "how often `./up` speaks of it")
        same(at.run("--version", RT_SLOW="up_a")[:2], (1, ""), "the status, and what is written")
        prover = pathlib.Path(f"{at.notes}.process").read_text()
        same(os.path.exists(f"/proc/{prover}"), False, "whether the prover is there")
        at.is_tidy()


def killed():
    """After a kill the next run finds the crate's work, and removes what is left of the room."""
    with tree() as at:
        run = at.begin("--version", RT_SLOW="up_d")
        soon(lambda: at.notes.exists() and "begun up_d " in at.notes.read_text(), "the crate that takes long")
        prover = int(at.notes.read_text().split("begun up_d ")[1].split()[0])
        soon(lambda: os.readlink(f"/proc/{prover}/exe").endswith("sleep"), "the prover")
        run.kill()
        os.kill(prover, signal.SIGKILL)
        ended(run)
        at.noted()
        same(at.run("--version")[:2], (0, "up 1 --version\n"), "what the next run does")
        same("begun up_d again" in at.noted(), True, "whether it goes on")
        at.is_tidy()


def ignored_signal():
    """A hangup that is ignored, as under nohup, ends nothing."""
    with tree() as at:
        words = ["sh", "-c", 'trap "" HUP; exec "$0" --version', str(at.folder / "up")]
        pipes = {"stdout": subprocess.PIPE, "stderr": subprocess.PIPE}
        run = subprocess.Popen(words, env=at.environment(), text=True, **pipes)
        soon(at.notes.exists, "the first crate")
        run.send_signal(signal.SIGHUP)
        same(ended(run)[:2], (0, "up 1 --version\n"), "what it does")


def bad_crate():
    """If a crate is refused, the run ends with status 1, and shows what is wrong. Nothing that uses it is begun."""
    with tree() as at:
        status, out, err = at.run("--version", RT_BAD="up_c")
        same((status, out), (1, ""), "the status, and what is written")
        last = err.splitlines()[-2:]
        same(last, ["up: it could not be built: up_c is not proved", "one: this is NOT PROVED"], "the last lines")
        same([it for it in at.noted() if it in ("begun up_d", "begun up")], [], "what is begun")
        at.is_tidy()
        same(at.run("--version")[:2], (0, "up 1 --version\n"), "what the next run does")


def no_toolchain():
    """Without a toolchain the run ends with status 1 and says so."""
    with tree() as at:
        told = "up: it could not be built: the toolchain is missing: there is no `rt` in PATH\n"
        same(at.run("--version", path="/usr/bin:/bin"), (1, "", told), "what it does")
        at.run("--version")
        same(at.run("--version", path="/usr/bin:/bin"), (1, "", told), "what it does once the program is built")
        status, out, err = at.run("try", "--version", path="/usr/bin:/bin")
        same((status, out, err.splitlines()[-1]), (1, "", "up: there is no `rt` in PATH"), "what `try` does")


def unlisted():
    """If a crate is missing in the program's line of crates.txt, the run says which crates use it."""
    with tree() as at:
        path = at.folder / "crates.txt"
        path.write_text(path.read_text().replace("up may_wait=1: up_a up_b", "up may_wait=1: up_a"))
        status, _, err = at.run("--version")
        told = "up: it could not be built: up's line of crates.txt lacks what up_d up use"
        same((status, err.splitlines()[-1]), (1, told), "the status and the last line")
        at.is_tidy()


def no_space():
    """On a full disk the run ends with status 1 and says so. With room again the next one succeeds."""
    with small_disk() as folder:
        at = Tree(folder)
        filler = pathlib.Path(folder, "filler")
        with contextlib.suppress(OSError), open(filler, "wb", buffering=0) as file:
            while file.write(bytes(4096)):
                pass
        status, out, err = at.run("--version")
        same((status, out, "No space left on device" in err), (1, "", True), f"what it does, behind {err!r}")
        filler.unlink()
        at.is_tidy()
        same(at.run("--version")[:2], (0, "up 1 --version\n"), "what the next run does")


def words():
    """All words are the program's, also those that mean something to a shell. `install` puts things in place, or says
    that it can't."""
    with tree() as at:
        same(at.run("a b", "$HOME", "*", "")[:2], (0, "up 1 a b $HOME * \n"), "what the program is given")
        status, out, err = at.run("install", "/opt", DESTDIR=str(at.tools))
        same((status, out), (0, ""), f"the status, behind {err!r}")
        told = subprocess.run([at.tools / "opt/bin/up", "--version"], capture_output=True, text=True).stdout
        same(told, "up 1 --version\n", "what is installed")
        status, out, err = at.run("install", str(at.source("up_a")))
        last = f"up: {at.source('up_a')}/lib/up/up could not be installed"
        same((status, out, err.splitlines()[-1]), (1, "", last), "what it does below a file")


CASES = [
    first_build, most_at_once, shares, second_start, changed_source, two_at_once, signals, signal_at_the_start, killed,
    ignored_signal, bad_crate, no_toolchain, unlisted, words,
]
PASSED_OVER = () if may_mount() else ("no_space: it needs leave to mount a disk",)
if may_mount():
    CASES.append(no_space)

sys.exit(try_all(CASES, sys.argv[1:], PASSED_OVER))
