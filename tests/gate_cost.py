#!/usr/bin/env python3
"""Runs `rt ci` over a copy of this repository, and says what it cost: for each crate the processor seconds of its proof, of the
proof of its tests, of the check that its edits begin with, of the edits themselves and of what was run; the totals; and the
longest chain of crates, where each is proved once those below it are, by one processor.

Twice a second it looks which processes `rt` has started and how much processor time each has taken, its children's with
it, so that of each the last half of a second is not seen. The time of the whole, which the system tells at the end, has all
of it; what no crate has of that is printed as the rest (`rt` itself, what links, and those ends). Looking takes less than a
hundredth of one processor.

Above the table stand the kit, how many processors there are, and how many ways lead down from libraries through crates.txt
(tests/ways.py).

usage: tests/gate_cost.py [--anew] [--log FILE] [CRATE ..]
       tests/gate_cost.py --beside PID

With --beside nothing is started: it looks at the `rt ci` that the process PID starts, as `.ci/run` does, and tells when that
has ended. With --anew nothing is taken from earlier runs; without, what they kept costs nothing and is not told. With crates
it is `rt ci CRATE ..`, of these and those below them. An `rt` whose help knows neither keeps nothing and tries all: it is
given no word. What `rt` says goes to the file, or else to a new one in a temporary folder.
Needs Python 3.8, Linux, and `rt`. Ends with the status of `rt ci`.
"""
import os
import re
import shutil
import signal
import subprocess
import sys
import tempfile
import time

sys.dont_write_bytecode = True
import ways  # noqa: E402

TOP = os.path.dirname(os.path.dirname(os.path.abspath(__file__)))
EVERY = 0.5  # seconds between two looks
KINDS = ["proof", "tests", "base", "edits", "runs"]
TICK = os.sysconf("SC_CLK_TCK")


def copy_of(top, to):
    """Copies the repository, without what git and `rt` keep in it."""
    shutil.copytree(top, to, ignore=lambda at, names: [it for it in names if it in (".git", "out", "__pycache__")])
    os.mkdir(f"{to}/.git")  # (it is the top of a repository)


NAMES = ways.crates_of(TOP)


def words_of(pid):
    with open(f"/proc/{pid}/cmdline", "rb") as file:
        return file.read().decode(errors="replace").split("\0")


def times_of(pid):
    """The parent of a process, and the processor seconds of itself and of the children that it has waited for."""
    with open(f"/proc/{pid}/stat", encoding="utf-8", errors="replace") as file:
        after = file.read().rpartition(")")[2].split()
    return int(after[1]), sum(int(it) for it in after[11:13]) / TICK, sum(int(it) for it in after[13:15]) / TICK


def what_is(pid):
    """The crate and the kind of work of a process that `rt` started, or None."""
    words = words_of(pid)
    if "--crate-name" in words:
        crate = words[words.index("--crate-name") + 1]
        if os.path.basename(os.readlink(f"/proc/{pid}/cwd")).startswith("rt-edit-"):
            start = words[words.index("--incremental") + 1] if "--incremental" in words else ""
            return crate, "base" if start.endswith("/seed") else "edits"
        return crate, "tests" if "--test" in words else "proof"
    ran = [os.path.basename(it) for it in words if "/rt-run-" in it and "/bin/" in it]
    # (the tests of a crate are built to its name and `_tests`; two programs have names that end so themselves)
    return (ran[-1] if ran[-1] in NAMES else re.sub(r"_tests$", "", ran[-1]), "runs") if ran else None


class Watch:
    """What the processes that `rt` starts have taken so far."""

    def __init__(self, rt):
        self.rt, self.ours, self.others, self.spent = rt, {}, set(), {}

    def look(self):
        alive = {int(it) for it in os.listdir("/proc") if it.isdigit()}
        self.others &= alive
        self.ours = {pid: it for pid, it in self.ours.items() if pid in alive}
        now = {}
        for pid in sorted(alive - self.others):
            try:
                parent, own, children = times_of(pid)
                first = self.first(pid, parent)
                if first:
                    now[first] = now.get(first, 0) + own + children
            except (OSError, ValueError, IndexError):
                continue
        for first, seconds in now.items():
            self.spent[first] = max(seconds, self.spent.get(first, 0))

    def first(self, pid, parent):
        """The process of `rt` that this one is or descends from, with its work, or None."""
        if pid not in self.ours:
            if parent in self.ours:
                self.ours[pid] = self.ours[parent]
            elif parent == self.rt:
                work = what_is(pid)
                if work:
                    self.ours[pid] = (pid, time.time(), *work)
                elif words_of(pid)[0] == "sh":  # (it only waits for `rt` to end)
                    self.others.add(pid)
            else:
                self.others.add(pid)
        return self.ours.get(pid)

    def sums(self):
        """The seconds of each crate and kind, and how many processes worked at it."""
        found = {}
        for (_, _, crate, kind), seconds in self.spent.items():
            much, many = found.get((crate, kind), (0, 0))
            found[crate, kind] = much + seconds, many + 1
        return found


def longest(crates, seconds):
    """The chain of crates, each standing on the one before, whose seconds together are the most."""
    best = {}

    def chain(name):
        if name not in best:
            below = max((chain(it) for it in crates[name]), key=lambda it: it[0], default=(0, []))
            best[name] = below[0] + seconds(name), [*below[1], name]
        return best[name]

    return max((chain(it) for it in crates), key=lambda it: it[0], default=(0, []))


def said_by(*words):
    return subprocess.run(words, stdin=subprocess.DEVNULL, stdout=subprocess.PIPE, text=True, check=False).stdout.strip()


def tell(crates, watch, wall, total):
    print(f"{said_by('rt', 'version')}; {len(os.sched_getaffinity(0))} processors; {ways.whole(TOP, crates):,} ways down from libraries")
    sums = watch.sums()
    of = lambda name, kind: sums.get((name, kind), (0, 0))
    print(f"{'crate':24}" + "".join(f"{it:>8}" for it in KINDS) + f"{'all':>8}  edits tried")
    for name in sorted(crates, key=lambda it: -sum(of(it, kind)[0] for kind in KINDS)):
        cells = [of(name, kind)[0] for kind in KINDS]
        if not any(cells):
            continue
        print(f"{name:24}" + "".join(f"{it:8.0f}" for it in [*cells, sum(cells)]) + f"  {of(name, 'edits')[1] or ''}")
    whole = [sum(of(name, kind)[0] for name in crates) for kind in KINDS]
    print(f"{'all':24}" + "".join(f"{it:8.0f}" for it in [*whole, sum(whole)]))
    length, chain = longest(crates, lambda it: of(it, "proof")[0])
    print(f"the longest chain of proofs: {length:.0f} s: {' '.join(chain)}")
    print(f"processor time of the whole: {total:.0f} s, of which the rest is {total - sum(whole):.0f} s")
    print(f"by the clock: {wall:.0f} s ({wall / 60:.1f} min), on {len(os.sched_getaffinity(0))} processors; looking took {time.process_time():.1f} s")


def child_of(parent):
    """The `rt ci` that a process has started, or None."""
    for it in os.listdir("/proc"):
        try:
            if it.isdigit() and times_of(int(it))[0] == parent and words_of(int(it))[-2:-1] == ["ci"]:
                return int(it)
        except (OSError, ValueError, IndexError):
            continue
    return None


def look_beside(parent):
    """Looks at the `rt ci` that a process starts, and tells once it has ended."""
    rt = None
    while rt is None and os.path.isdir(f"/proc/{parent}"):
        time.sleep(EVERY)
        rt = child_of(parent)
    begun, watch, total = time.time(), Watch(rt), 0
    try:
        while rt is not None:
            total = sum(times_of(rt)[1:])
            watch.look()
            time.sleep(EVERY)
    except (OSError, KeyboardInterrupt):
        pass  # (it has ended, or this is to end)
    tell(ways.crates_of(TOP), watch, time.time() - begun, total)
    return 0


def words_for_rt(words):
    """Those of the words that `rt ci` takes: an older `rt`, whose help has no --anew, proves all anew and takes none."""
    said = subprocess.run(["rt", "help"], stdin=subprocess.DEVNULL, capture_output=True, text=True, check=False)
    return words if "--anew" in said.stdout + said.stderr else []


def measure(words, log, room):
    """Runs `rt ci`, and returns its status."""
    crates, begun = ways.crates_of(TOP), time.time()
    ran = subprocess.Popen(["rt", "ci", *words_for_rt(words)], cwd=room, stdin=subprocess.DEVNULL, stdout=log, stderr=log)
    watch, ended = Watch(ran.pid), 0
    while not ended:
        try:
            watch.look()
            ended, status, used = os.wait4(ran.pid, os.WNOHANG)
            if not ended:
                time.sleep(EVERY)
        except KeyboardInterrupt:
            os.kill(ran.pid, signal.SIGTERM)
            ended, status, used = os.wait4(ran.pid, 0)
    tell(crates, watch, time.time() - begun, used.ru_utime + used.ru_stime)
    ran.returncode = os.WEXITSTATUS(status) if os.WIFEXITED(status) else 1
    return ran.returncode


def main(words):
    # (to be stopped is to be interrupted: what was seen is told, and `rt` ends too)
    signal.signal(signal.SIGTERM, lambda number, frame: signal.raise_signal(signal.SIGINT))
    if len(words) == 2 and words[0] == "--beside" and words[1].isdigit():
        return look_beside(int(words[1]))
    path = None
    if "--log" in words[:-1]:
        at = words.index("--log")
        path, words = words[at + 1], words[:at] + words[at + 2 :]
    if any(it.startswith("-") and it != "--anew" for it in words):
        print(__doc__.split("\n\n")[2], file=sys.stderr)
        return 2
    path = path or tempfile.mkstemp(prefix="gate-cost-", suffix=".log")[1]
    with tempfile.TemporaryDirectory(prefix="gate-cost-") as room, open(path, "w+", encoding="utf-8", errors="replace") as log:
        copy_of(TOP, f"{room}/copy")
        status = measure(words, log, f"{room}/copy")
        log.seek(0)
        said = log.read().rstrip("\n").split("\n")[-2:]
    print("\n".join([*said, f"(all that rt said: {path})"]))
    return status


if __name__ == "__main__":
    sys.exit(main(sys.argv[1:]))
