"""Runs a program over hostile folders of class files, each at its full size and at half of it.

For each it prints the bytes, the time, the memory and the first line of the answer, and then what misses an aim. It
ends with status 1 where something does.

    python3 measure.py PROGRAM [CASE..]
    python3 measure.py --write FOLDER [CASE..]    writes the folders alone, as FOLDER/CASE-1/classes and CASE-2
    python3 measure.py --list
"""

import os
import subprocess
import sys
import tempfile
import time
from pathlib import Path

import class_cases
import code_cases

CASES = {case.__name__: case for case in code_cases.CASES + class_cases.CASES}
MOST_SECONDS, MOST_BYTES, MOST_RATIO = 1.5, 256 << 20, 2.5
GIVES_UP = 120
# Below this a time says more of the start of the program than of the case.
LEAST_SECONDS = 0.05


def write(folder, name, size):
    """Writes the class files of a case."""
    classes = Path(folder) / f"{name}-{size}" / "classes"
    classes.mkdir(parents=True)
    for file, content in CASES[name](size).items():
        (classes / file).write_bytes(content)


def run_once(program, folder):
    """The seconds, the bytes of memory and the first line of one run."""
    with tempfile.TemporaryFile() as answer:
        begin = time.monotonic()
        child = subprocess.Popen([program, "-j", "1", "show", "a"], cwd=folder, stdout=answer, stderr=answer)
        limit = begin + GIVES_UP
        while True:
            done, _, use = os.wait4(child.pid, os.WNOHANG)
            if done:
                break
            if time.monotonic() > limit:
                child.kill()
                _, _, use = os.wait4(child.pid, 0)
                break
            time.sleep(0.001)
        taken = time.monotonic() - begin
        child.returncode = 0
        answer.seek(0)
        line = answer.readline().decode(errors="replace").strip()
    return taken, use.ru_maxrss * 1024, line if taken < GIVES_UP else "given up"


def run(program, folder):
    """The run of least time, of three where they are short."""
    runs = [run_once(program, folder)]
    while len(runs) < 3 and runs[0][0] < 5:
        runs.append(run_once(program, folder))
    return min(runs)


def measured(program, name):
    """Prints the row of a case, and gives what misses an aim."""
    results = []
    with tempfile.TemporaryDirectory() as work:
        # By a process of its own, since the memory of this one counts in a child's.
        subprocess.run([sys.executable, "-B", __file__, "--write", work, name], check=True)
        for size in (1, 2):
            folder = Path(work) / f"{name}-{size}"
            total = sum(file.stat().st_size for file in (folder / "classes").iterdir())
            results.append((total, *run(program, folder)))
    (total, taken, memory, line), (half_total, half_taken, half_memory, half_line) = results
    ratio = taken / max(half_taken, LEAST_SECONDS)
    print(
        f"| {name} | {total:,} | {taken:.2f} s | {memory >> 20} MB "
        f"| {half_total:,} | {half_taken:.2f} s | {half_memory >> 20} MB | {ratio:.1f} | {line} |",
        flush=True,
    )
    misses = []
    for told in (line, half_line):
        if told.startswith(("build:", "workspace fault")):
            misses.append(f"{name}: refused before its end: {told}")
    if taken > MOST_SECONDS:
        misses.append(f"{name}: {taken:.2f} s, above {MOST_SECONDS} s")
    if memory > MOST_BYTES:
        misses.append(f"{name}: {memory >> 20} MB, above {MOST_BYTES >> 20} MB")
    if ratio > MOST_RATIO:
        misses.append(f"{name}: {ratio:.1f} times the time of half its size, above {MOST_RATIO}")
    return misses


def main():
    words = sys.argv[1:]
    if not words:
        sys.exit(__doc__)
    if words == ["--list"]:
        for name, case in CASES.items():
            print(f"{name}: {' '.join(case.__doc__.split())}")
        return
    if words[0] == "--write":
        for name in words[2:] or CASES:
            for size in (1, 2):
                write(words[1], name, size)
        return
    program = os.path.abspath(words[0])
    print("| case | bytes | time | memory | half: bytes | time | memory | times | answer |")
    print("|---" * 9 + "|")
    misses = [miss for name in words[1:] or CASES for miss in measured(program, name)]
    print("\n".join(misses) or "every case meets the aims")
    sys.exit(1 if misses else 0)


main()
