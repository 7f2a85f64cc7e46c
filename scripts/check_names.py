#!/usr/bin/env python3
"""Says which names in docs/DEFINITIONS.md stand in no file of specs/. Status 1 where one doesn't.

The first column of a table names definitions as `File.name`, or as `name` alone where the file is that of the name
before it in the row or doesn't matter. `File.*` stands for all of a file.
"""
import pathlib
import re
import sys

TOP = pathlib.Path(__file__).resolve().parent.parent
NAME = re.compile(r"`(?:([A-Z]\w*)\.)?([\w◌<>|]+|\*)`")


def defined_by_file():
    names = {}
    for path in TOP.glob("crates/*/specs/*.antt"):
        text = path.read_text(encoding="utf-8")
        names.setdefault(path.stem, set()).update(re.findall(r"[\w◌<>|]+", text))
    return names


def main():
    by_file = defined_by_file()
    everywhere = set().union(*by_file.values())
    missing = []
    for line in (TOP / "docs/DEFINITIONS.md").read_text(encoding="utf-8").splitlines():
        if not line.startswith("| `"):
            continue
        for file, name in NAME.findall(line.split("|")[1]):
            if not file and (TOP / "crates" / name).is_dir():
                continue
            if file and file not in by_file:
                missing.append(f"{file}.{name}")
            elif name != "*" and name not in (by_file[file] if file else everywhere):
                missing.append(f"{file}.{name}" if file else name)
    for name in missing:
        print(f"docs/DEFINITIONS.md: {name} stands in no specs/")
    sys.exit(1 if missing else 0)


if __name__ == "__main__":
    main()
