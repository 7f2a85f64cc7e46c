#!/usr/bin/env python3
"""Tells how many processor minutes the gate takes, by crate: for its proof, its tests, its refused edits, and the build
and the runs of its program.

    python3 scripts/gate_minutes.py                  runs `rt ci --anew` in a clone of its own in a temporary folder
    python3 scripts/gate_minutes.py --watch FOLDER   watches the `rt ci` that runs in that folder, until it ends

It reads /proc twice a second and counts each process below the `rt ci`, with its own time; what a process takes after
its last reading is lost, so the sum of the table is a little less than the whole. Lines of markdown go to standard output.
"""

import collections
import os
import re
import subprocess
import sys
import tempfile
import time

TICKS = os.sysconf("SC_CLK_TCK")
KINDS = ("proof", "tests", "edits", "program")


def read_stat(pid):
    """The parent, the start and the processor seconds of a process."""
    with open(f"/proc/{pid}/stat", encoding="utf-8", errors="replace") as file:
        fields = file.read().rpartition(")")[2].split()
    return int(fields[1]), int(fields[19]), (int(fields[11]) + int(fields[12])) / TICKS


def read_words(pid):
    with open(f"/proc/{pid}/cmdline", "rb") as file:
        return file.read().decode(errors="replace").split("\0")


def processes():
    """Each process that can be read: its parent, start and seconds."""
    found = {}
    for name in os.listdir("/proc"):
        if name.isdigit():
            try:
                found[int(name)] = read_stat(name)
            except (OSError, ValueError, IndexError):
                pass
    return found


def is_gate(pid, folder):
    """Whether a process is an `rt ci` in the folder."""
    try:
        words = read_words(pid)
        return "ci" in words and any(word.endswith("/rt") for word in words) and os.path.samefile(f"/proc/{pid}/cwd", folder)
    except OSError:
        return False


def is_below(pid, roots, found):
    for _ in range(64):
        if pid in roots:
            return True
        if pid not in found:
            return False
        pid = found[pid][0]
    return False


def label(pid):
    """The crate and the kind of work of a process, or nothing where it is none of a crate."""
    words, folder = read_words(pid), os.readlink(f"/proc/{pid}/cwd")
    named = re.search(r"--crate-name\0(\w+)", "\0".join(words)) or re.search(r"/crates/(\w+)", folder)
    named = named or re.search(r"/rt-run-[^/]*/bin/(\w+?)(?:_tests)?(?:\0|$)", "\0".join(words))
    if not named:
        return None
    if os.path.basename(folder).startswith("rt-edit-"):
        return named[1], "edits"
    if "--test" in words or any(word.endswith(("_tests", "_tests.o")) for word in words):
        return named[1], "tests"
    is_proof = os.path.basename(words[0]) == "rattle" and "--toolchain" not in words
    return named[1], "proof" if is_proof else "program"


class Watch:
    """The seconds of each process that was seen below some roots."""

    def __init__(self):
        self.seconds, self.labels = {}, {}

    def look(self, roots):
        found = processes()
        for pid, (_, start, seconds) in found.items():
            if not is_below(pid, roots, found):
                continue
            key = pid, start
            try:
                self.labels[key] = label(pid) or self.labels.get(key)
                self.seconds[key] = seconds
            except OSError:
                pass

    def table(self):
        sums = collections.defaultdict(collections.Counter)
        for key, seconds in self.seconds.items():
            crate, kind = self.labels[key] or ("(the rest)", "program")
            sums[crate][kind] += seconds
        return sums


def show(sums, took):
    """Prints minutes by crate, the dearest first."""
    print("| crate | " + " | ".join(KINDS) + " | all |")
    print("|---|" + "---:|" * (len(KINDS) + 1))
    total = collections.Counter()
    for crate, by_kind in sorted(sums.items(), key=lambda row: -sum(row[1].values())):
        total.update(by_kind)
        print_row(crate, by_kind)
    print_row("all", total)
    print(f"\n{took / 60:.1f} minutes by the clock, on {os.cpu_count()} processors.")


def print_row(name, by_kind):
    cells = [f"{by_kind[kind] / 60:.1f}" for kind in KINDS]
    print(f"| {name} | " + " | ".join(cells) + f" | {sum(by_kind.values()) / 60:.1f} |")


def watch(folder):
    """Watches until no `rt ci` runs in the folder."""
    watched, begun = Watch(), time.time()
    while roots := {pid for pid in processes() if is_gate(pid, folder)}:
        watched.look(roots)
        time.sleep(0.5)
    return watched.table(), time.time() - begun


def run(top):
    """Runs the gate in a clone, and gives its status too."""
    with tempfile.TemporaryDirectory(prefix="gate-minutes-") as room:
        clone = os.path.join(room, "clone")
        subprocess.run(["git", "clone", "-q", top, clone], check=True)
        watched, begun = Watch(), time.time()
        with open(os.path.join(room, "log"), "w", encoding="utf-8") as log:
            gate = subprocess.Popen(["rt", "ci", "--anew"], cwd=clone, stdout=log, stderr=log, stdin=subprocess.DEVNULL)
            while gate.poll() is None:
                watched.look({gate.pid})
                time.sleep(0.5)
        with open(os.path.join(room, "log"), encoding="utf-8", errors="replace") as log:
            print(log.read().rstrip("\n").rpartition("\n")[2], file=sys.stderr)
        return watched.table(), time.time() - begun, gate.returncode


def main(words):
    if len(words) == 2 and words[0] == "--watch":
        show(*watch(words[1]))
        return 0
    if words:
        print(__doc__, file=sys.stderr)
        return 2
    sums, took, status = run(os.path.dirname(os.path.dirname(os.path.abspath(__file__))))
    show(sums, took)
    return status


if __name__ == "__main__":
    sys.exit(main(sys.argv[1:]))
