"""Compares the Java sources in api/ with the table of natives, both ways, by their texts.

Each public method and constructor of a class there is a native of its class, or of all throwables where it is one, and
each native of a class of package `mill` stands there. Prints what differs, and ends with status 1 where something does.

    python3 scripts/compare_api.py
"""

import re
import sys
from pathlib import Path

TOP = Path(__file__).resolve().parent.parent
PRIMITIVES = {"void": "V", "boolean": "Z", "char": "C", "int": "I", "long": "J"}
IN_LANG = ["Object", "String", "Throwable", "RuntimeException"]
ROW = re.compile(r'row!\("([^"]+)": (\w+), "([^"]+)", "([^"]+)", (true|false)')
METHOD = re.compile(r"^    public (.*?)(\w+)\((.*?)\)[^;{]*[;{]", re.MULTILINE)


def natives():
    """The natives by class, with the throwables' under that name."""
    found = {}
    table = (TOP / "crates/jvm_tables/src/natives.rt").read_text()
    for owner, family, name, descriptor, is_static in ROW.findall(table):
        group = family if family == "Throwables" else owner
        found.setdefault(group, set()).add((name, descriptor, is_static == "true"))
    return found


def without_generics(text):
    """The text without what stands in angle brackets."""
    while "<" in text:
        text = re.sub(r"<[^<>]*>", "", text)
    return text


def descriptor_of(kind, names):
    """The descriptor of a type as the source writes it. A type variable, one letter, stands for an object."""
    if kind in PRIMITIVES:
        return PRIMITIVES[kind]
    return f"L{names['Object' if len(kind) == 1 else kind]};"


def names_in(path, source):
    """The full name of each class that a source can name."""
    names = {name: f"java/lang/{name}" for name in IN_LANG}
    names |= {other.stem: f"mill/{other.stem}" for other in path.parent.glob("*.java")}
    for imported in re.findall(r"^import ([\w.]+);", source, re.MULTILINE):
        names[imported.rsplit(".", 1)[1]] = imported.replace(".", "/")
    return names


def declared(path):
    """The superclass of a class in a source, and its public methods."""
    source = re.sub(r"/\*.*?\*/", "", path.read_text(), flags=re.DOTALL)
    names = names_in(path, source)
    methods = set()
    for front, name, parameters in METHOD.findall(source):
        words = without_generics(front).split()
        kinds = [part.split()[0] for part in without_generics(parameters).split(",") if part.strip()]
        taken = "".join(descriptor_of(kind, names) for kind in kinds)
        if name == path.stem:
            methods.add(("<init>", f"({taken})V", False))
        else:
            methods.add((name, f"({taken}){descriptor_of(words[-1], names)}", "static" in words))
    above = re.search(r"class \w+ extends (\w+)", source)
    return above.group(1) if above else "Object", methods


def main():
    table, failed = natives(), False
    sources = {path.stem: path for path in (TOP / "api/mill").glob("*.java") if "@interface" not in path.read_text()}
    for group in table:
        if group.startswith("mill/") and group[5:] not in sources:
            print(f"{group}: no source in api/mill")
            failed = True
    for name, path in sorted(sources.items()):
        above, methods = declared(path)
        if above == "RuntimeException":
            wanted = {row for row in table["Throwables"] if row[0] == "<init>"}
        else:
            wanted = table.get(f"mill/{name}", set())
        for method, descriptor, is_static in sorted(wanted ^ methods):
            where = "the table alone" if (method, descriptor, is_static) in wanted else "the source alone"
            print(f"mill/{name}.{method}{descriptor}{', static' if is_static else ''}: in {where}")
            failed = True
    print("the sources of the API differ from the natives" if failed else "api: equal to the natives")
    sys.exit(1 if failed else 0)


main()
